//! A comment of a file, without its date in words and whole as JSON.

use super::words::{comment_kind, latin, quoted};
use serde_json::{Value, json};
use walk::Comment;

/// Kind, reference and text.
pub fn words(comment: &Comment) -> String {
    let Comment { kind, reference, text, .. } = comment;
    format!("{} {reference}: {}", comment_kind(*kind), quoted(&text.bytes))
}

pub fn json(comment: &Comment) -> Value {
    json!({
        "place": comment.place,
        "year": comment.year,
        "month": comment.month,
        "day": comment.day,
        "hour": comment.hour,
        "minutes": comment.minutes,
        "kind": comment.kind,
        "kind_name": comment_kind(comment.kind),
        "reference": comment.reference,
        "text": latin(&comment.text.bytes),
    })
}
