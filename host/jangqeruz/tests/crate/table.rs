//! What is told of each refusal.

use std::fs;
use std::path::Path;

use jangqeruz::Refusal;

#[test]
fn each_number_has_its_refusal() {
    let all = Refusal::all();
    for (number, refusal) in (1..).zip(all) {
        assert_eq!(refusal.number(), number);
        assert_eq!(refusal.detail(), 0);
        assert_eq!(Refusal::new(number.into(), 0), Some(refusal));
        let detail = Refusal::new(number.into(), 9).unwrap().detail();
        assert_eq!(detail, if [18, 40, 41].contains(&number) { 9 } else { 0 });
    }
    assert_eq!(all.len(), 43);
    for number in [0, 44, u64::MAX] {
        assert_eq!(Refusal::new(number, 0), None);
    }
}

#[test]
fn each_says_what_to_do() {
    for refusal in Refusal::all() {
        for text in [refusal.words(), refusal.remedy()] {
            assert!(text.ends_with('.') && text.is_ascii() | text.contains('−') && !text.contains("  "), "{text}");
        }
    }
    assert_eq!(Refusal::Channels.to_string(), "refused (7): Channels aren't 1 to 6.");
    assert_eq!(
        Refusal::TrackShort(3).to_string(),
        "refused (18): A track is under 75 frames; detail, the first one's number. Detail: 3."
    );
}

#[test]
fn each_definition_is_in_the_repository() {
    let root = Path::new(env!("CARGO_MANIFEST_DIR")).join("../..");
    for refusal in Refusal::all() {
        for definition in refusal.definition().split("; ") {
            let (file, name) = definition.split_once(": ").unwrap();
            let text = fs::read_to_string(root.join(file)).unwrap_or_else(|error| panic!("{file}: {error}"));
            let declared = format!("pub {name} :");
            assert!(text.lines().any(|line| line.contains(&declared)), "{definition}");
        }
    }
}
