//! A signature laid out for a person.

use std::fmt::Write;

use trewizlow::Directory;

use super::names::covered;
use super::{hex, Shown};
use crate::{flags, kinds, limit};

/// Code slots that are printed where not all are asked for.
const FEW: usize = 16;

pub fn text(shown: &Shown, all_slots: bool) -> String {
    let mut out = String::new();
    blobs(&mut out, shown);
    if !shown.answer().accepted() {
        writeln!(out, "{}", shown.answer()).unwrap();
        return out;
    }
    fields(&mut out, shown);
    special_slots(&mut out, shown);
    code_slots(&mut out, shown, all_slots);
    out
}

/// No lines where tests 1 to 9 refuse, since no blob is then found.
fn blobs(out: &mut String, shown: &Shown) {
    if shown.blobs.is_empty() {
        return;
    }
    writeln!(out, "blobs\n     start    length     type  what").unwrap();
    for (kind, name, blob) in &shown.blobs {
        writeln!(out, "  {:8}  {:8}  {kind:#7x}  {name}", blob.start, blob.length).unwrap();
    }
    out.push('\n');
}

fn fields(out: &mut String, shown: &Shown) {
    let d = &shown.directory;
    let rows = [
        ("identifier", shown.identifier().escape_ascii().to_string()),
        ("cdhash", hex(&shown.cdhash.hash)),
        ("version", format!("{:#x}", d.version)),
        ("flags", flags::text(d.flags)),
        ("platform", d.platform.to_string()),
        ("hash type", hash_type(d)),
        ("code limit", format!("{} bytes ({})", d.code_limit, limit::name(shown.signature))),
        ("page size", format!("{} bytes (pageSize {})", d.page_size, d.page_shift)),
        ("code slots", format!("{} from byte {} of the directory", d.code_slots, d.hash_offset)),
        ("special slots", d.special_slots.to_string()),
    ];
    out.push_str("code directory\n");
    for (name, value) in rows {
        writeln!(out, "  {name:13}  {value}").unwrap();
    }
}

fn hash_type(d: &Directory) -> String {
    format!("{} ({}), {} bytes a slot", d.hash_type, kinds::name(d.hash_type), d.hash_size)
}

fn special_slots(out: &mut String, shown: &Shown) {
    let count = shown.directory.special_slots as usize;
    if count > 0 {
        out.push_str("\nspecial slots\n");
    }
    for k in 1..=count {
        let slot = shown.special_slot(k);
        let empty = slot.iter().all(|&byte| byte == 0);
        let value = if empty { "empty".to_string() } else { hex(slot) };
        writeln!(out, "  {k:2}  {value}  {}", covered(k)).unwrap();
    }
}

fn code_slots(out: &mut String, shown: &Shown, all: bool) {
    let count = shown.directory.code_slots as usize;
    if count > 0 {
        out.push_str("\ncode slots\n");
    }
    let printed = if all { count } else { count.min(FEW) };
    for i in 0..printed {
        writeln!(out, "  {i:5}  {}", hex(shown.code_slot(i))).unwrap();
    }
    if printed < count {
        writeln!(out, "  and {} more: --all-slots prints them", count - printed).unwrap();
    }
}
