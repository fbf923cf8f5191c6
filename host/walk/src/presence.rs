//! Chunks that are missing or repeated, and a PROP after the sound (50).
use crate::{Chunk, Rule, Walk};

pub(crate) fn check(found: &mut Walk) {
    let Some(form) = found.form.take() else { return };
    once(found, &form, &[*b"FVER"], "FVER");
    once(found, &form, &[*b"PROP"], "PROP");
    let property = form.first(b"PROP").filter(|property| property.size >= 4);
    if let Some(property) = property {
        once(found, property, &[*b"FS  "], "FS");
        once(found, property, &[*b"CHNL"], "CHNL");
        once(found, property, &[*b"CMPR"], "CMPR");
    }
    once(found, &form, &[*b"DSD ", *b"DST "], "sound chunk");
    if let (Some(property), Some(sound)) = (form.first(b"PROP"), &found.sound)
        && property.place > sound.place
    {
        found.fault(Rule::Presence, property.place, "PROP after the sound".into());
    }
    found.form = Some(form);
}

fn once(found: &mut Walk, parent: &Chunk, names: &[[u8; 4]], what: &str) {
    let mut places = parent.chunks.iter().filter(|chunk| names.contains(&chunk.name.0)).map(|chunk| chunk.place);
    match (places.next(), places.next()) {
        (None, _) => found.fault(Rule::Presence, parent.place, format!("{} has no {what}", parent.name)),
        (Some(first), Some(second)) => {
            found.fault(Rule::Presence, second, format!("{what} is repeated (the first is at {first})"));
        }
        _ => {}
    }
}
