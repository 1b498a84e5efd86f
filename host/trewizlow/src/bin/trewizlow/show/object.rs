//! A signature as a JSON object.

use super::{hex, Shown};
use crate::flags;
use crate::json::{answer, array, object, string, Member};
use crate::{kinds, limit, scatter};

const WELL_FORMED: &str = "the signature is well formed: all of its tests pass";

pub fn text(shown: &Shown) -> String {
    let said = shown.answer();
    let well_formed = ("well_formed", said.accepted().to_string());
    let sentence = if said.accepted() { WELL_FORMED.to_string() } else { said.sentence() };
    let mut members = answer(said.number, said.place, well_formed, &sentence);
    members.push(("blobs", blobs(shown)));
    members.extend(remarks(shown.signature));
    if said.accepted() {
        members.push(("directory", directory(shown)));
    }
    object(&members) + "\n"
}

/// What a refusal is about, and what is warned of.
fn remarks(signature: &[u8]) -> Vec<Member> {
    let mut members = Vec::new();
    if let Some((kind, size)) = kinds::mismatch(signature) {
        members.extend([("hash_type", kind.to_string()), ("hash_size", size.to_string())]);
    }
    let not_allowed = flags::not_allowed(signature);
    if !not_allowed.is_empty() {
        members.push(("flags_not_allowed", strings(&not_allowed)));
    }
    if let Some(limit) = limit::too_large(signature) {
        members.push(("code_limit64", limit.to_string()));
    }
    if let Some(offset) = scatter::offset(signature) {
        members.push(("scatter_offset", offset.to_string()));
    }
    members.extend(kinds::warning_member(signature));
    members
}

fn strings(words: &[String]) -> String {
    array(words.iter().map(|word| string(word)))
}

fn blobs(shown: &Shown) -> String {
    array(shown.blobs.iter().map(|(kind, name, blob)| {
        object(&[
            ("type", kind.to_string()),
            ("name", string(name)),
            ("start", blob.start.to_string()),
            ("length", blob.length.to_string()),
        ])
    }))
}

fn directory(shown: &Shown) -> String {
    let d = &shown.directory;
    let slots = |slots: &mut dyn Iterator<Item = &[u8]>| array(slots.map(|s| string(&hex(s))));
    object(&[
        ("cdhash", string(&hex(&shown.cdhash.hash))),
        ("identifier", string(&String::from_utf8_lossy(shown.identifier()))),
        ("start", d.start.to_string()),
        ("length", d.length.to_string()),
        ("version", d.version.to_string()),
        ("flags", d.flags.to_string()),
        ("flag_names", strings(&flags::names(d.flags))),
        ("hash_offset", d.hash_offset.to_string()),
        ("ident_offset", d.ident_offset.to_string()),
        ("hash_size", d.hash_size.to_string()),
        ("hash_type", d.hash_type.to_string()),
        ("hash_type_name", string(kinds::name(d.hash_type))),
        ("platform", d.platform.to_string()),
        ("page_shift", d.page_shift.to_string()),
        ("code_limit", d.code_limit.to_string()),
        ("code_limit_field", string(limit::name(shown.signature))),
        ("page_size", d.page_size.to_string()),
        (
            "special_slots",
            slots(&mut (1..=d.special_slots as usize).map(|k| shown.special_slot(k))),
        ),
        ("code_slots", slots(&mut (0..d.code_slots as usize).map(|i| shown.code_slot(i)))),
    ])
}
