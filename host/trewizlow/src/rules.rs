//! The table of refusals in words (documents 01 and 02).

/// One number of the table.
pub struct Rule {
    pub number: u32,
    /// What a refusal says; `{place}` stands for its place.
    failed: &'static str,
    /// When the number is given.
    pub given: &'static str,
    /// What the place means; empty where it is always 0.
    pub place: &'static str,
    /// The calls that can answer it.
    pub calls: &'static str,
}

impl Rule {
    /// The rule of a number; none where the table has no such number.
    pub fn of(number: u32) -> Option<&'static Rule> {
        RULES.iter().find(|rule| rule.number == number)
    }

    /// What failed, at a place that is not said.
    pub fn general(&self) -> String {
        self.failed.replace("{place}", "N")
    }

    /// What failed and where.
    pub fn sentence(&self, place: usize) -> String {
        self.failed.replace("{place}", &place.to_string())
    }
}

const ALL: &str = "check, recheck, read, cdhash, find";
const READING: &str = "check, recheck, read, cdhash";
const BOTH: &str = "check, recheck";
const CHECK: &str = "check";
const RECHECK: &str = "recheck";

const POSITION: &str = "position in the SuperBlob's index, from 0";
const SLOT: &str = "special slot";
const ENTRY: &str = "trust cache entry, from 0";
const PAGE: &str = "page, from 0";

const fn rule(
    number: u32,
    failed: &'static str,
    given: &'static str,
    place: &'static str,
    calls: &'static str,
) -> Rule {
    Rule { number, failed, given, place, calls }
}

/// The rules in the order of their numbers, which may have gaps; 0 is no refusal.
#[rustfmt::skip]
pub static RULES: &[Rule] = &[
    rule(0, "every test of the call passes",
        "every test of the call passes",
        "in a whole check the trust cache entry that lists the directory's hash, from 0", ALL),
    rule(1, "the signature, or a side file that is there, has a length outside the limits",
        "the signature is under 12 or over 67,108,864 bytes, or in a whole check a side file (Info.plist, CodeResources) that is there is over 4,194,304 bytes",
        "", ALL),
    rule(2, "the signature does not start with the SuperBlob magic",
        "the SuperBlob magic is not 0xFADE0CC0",
        "", ALL),
    rule(3, "the SuperBlob lists no blob or too many",
        "the SuperBlob's count is 0 or over 64",
        "", ALL),
    rule(4, "the SuperBlob's length does not fit its index or the signature's bytes",
        "the SuperBlob's length is below 12 + 8 * count or above the length of the lent signature",
        "", ALL),
    rule(5, "the slot type at index position {place} is not known",
        "a slot type in the index is not 0, 2, 5, 7 to 11, 0x1000 to 0x1004 or 0x10000",
        POSITION, ALL),
    rule(6, "the slot type at index position {place} stands at an earlier position too",
        "a slot type is already at an earlier position of the index",
        POSITION, ALL),
    rule(7, "the blob at index position {place} does not lie inside the SuperBlob",
        "a blob's offset is below 12 + 8 * count, its 8-byte head or its whole length is not inside the SuperBlob, or its length is under 8",
        POSITION, ALL),
    rule(8, "the blob at index position {place} does not have its type's magic",
        "a blob's magic is not the one of its slot type",
        POSITION, ALL),
    rule(9, "the blob at index position {place} shares bytes with one at an earlier position",
        "a blob shares a byte with a blob at an earlier position of the index",
        POSITION, ALL),
    rule(10, "the signature has no code directory",
        "no blob has slot type 0",
        "", READING),
    rule(11, "the directory's version is not one that is read",
        "the directory's version is outside 0x20001 to 0x20600",
        "", READING),
    rule(12, "the directory is shorter than its head",
        "the directory is under 12 bytes, or shorter than the head of its version",
        "", READING),
    rule(13, "the directory's hash type is not one that is read, or its hash size is not the type's",
        "hashType is not 1 (SHA-1), 2 (SHA-256), 3 (SHA-256 cut to 20 bytes) or 4 (SHA-384), or hashSize is not the kind's: 20, 32, 20, 48",
        "", READING),
    rule(14, "the directory's page size is not one that is read",
        "pageSize is not 0, 12 or 14",
        "", READING),
    rule(15, "the directory's code limit is above 17,179,869,184",
        "codeLimit64 is present (version 0x20300 and up) and above 17,179,869,184",
        "", READING),
    rule(16, "the directory's slot counts do not fit its code limit or the limits",
        "nCodeSlots is not the code limit divided by the page size, rounded up, or is over 1,048,576, or nSpecialSlots is over 11; the code limit is codeLimit64 where it is present (version 0x20300 and up) and not 0, else codeLimit",
        "", READING),
    rule(17, "a slot lies outside the directory",
        "a code or special slot, of the hash kind's 20, 32, 20 or 48 bytes, reaches before the end of the directory's head or past the directory",
        "", READING),
    rule(18, "the directory's identifier is misplaced or has no end",
        "the identifier starts before the end of the directory's head, or no zero byte follows it in the directory",
        "", READING),
    rule(19, "the image is shorter than the directory's code limit",
        "the image has fewer bytes than the code limit: codeLimit64 where it is present (version 0x20300 and up) and not 0, else codeLimit",
        "", CHECK),
    rule(20, "the marks are not one byte for each page",
        "the marks buffer does not have nCodeSlots bytes",
        "", BOTH),
    rule(21, "special slot {place} is filled, but what it covers is not there",
        "a special slot is not empty and the thing that it covers is not there",
        SLOT, CHECK),
    rule(22, "what special slot {place} covers does not have the slot's hash",
        "a special slot and its thing are both there and the hash differs",
        SLOT, CHECK),
    rule(23, "what special slot {place} covers is there, but the slot is empty",
        "a thing is there and its special slot is empty",
        SLOT, CHECK),
    rule(24, "the trust cache is malformed",
        "the cache is under 24 bytes, its version is not 2, it has over 65,536 entries, or its length is not 24 + 24 * entries",
        "", CHECK),
    rule(25, "trust cache entry {place} is not above the one before it",
        "the hashes of the cache's entries are not strictly increasing, first byte first",
        ENTRY, CHECK),
    rule(26, "the trust cache does not list the directory's hash",
        "no entry has the first 20 bytes of the directory's hash, which is by its own hashType",
        "", CHECK),
    rule(27, "trust cache entry {place} lists the directory's hash under another hash type",
        "the hash type of the entry that lists the directory is not the directory's",
        ENTRY, CHECK),
    rule(28, "the trust cache entry has constraint category {place}, which is not known",
        "the constraint category of the entry that lists the directory is above 1",
        "the category", CHECK),
    rule(29, "the launch facts do not meet the entry's self constraint",
        "the entry has category 1, and not: on an authorized or the system volume, with launch type 1 and validation category 1",
        "", CHECK),
    rule(30, "the launch facts do not meet the entry's parent constraint",
        "the entry has category 1, and the parent is not init",
        "", CHECK),
    rule(31, "page {place} differs from its code slot",
        "a page's hash is not its code slot; a recheck looks at all marks after it wrote those of the pages met",
        "the lowest such page, from 0", BOTH),
    rule(32, "the range ends above the directory's code limit",
        "start + length, as a whole number that never wraps, is above the code limit: codeLimit64 where it is present (version 0x20300 and up) and not 0, else codeLimit",
        "", RECHECK),
    rule(33, "the lent pages do not have the length of the pages that the range meets",
        "the lent bytes do not run exactly from the start of the first page met to the end of the last; an empty range wants 0 bytes",
        "", RECHECK),
    rule(34, "the mark of page {place} is neither 0 nor 1",
        "a mark is neither 0 nor 1",
        PAGE, RECHECK),
    rule(35, "the directory has a scatterOffset that is not 0",
        "scatterOffset, the four bytes at 44, is present (version 0x20100 and up) and not 0: its code slots do not cover the image from byte 0 upward; tested after 15 and before 16",
        "", READING),
    rule(46, "the directory's flags hold a bit that is not allowed",
        "flags hold a bit outside CS_ALLOWED_MACHO, 0x33F02: CS_ADHOC 0x2, CS_HARD 0x100, CS_KILL 0x200, CS_CHECK_EXPIRATION 0x400, CS_RESTRICT 0x800, CS_ENFORCEMENT 0x1000, CS_REQUIRE_LV 0x2000, CS_RUNTIME 0x10000, CS_LINKER_SIGNED 0x20000; tested after 14 and before 15",
        "", READING),
];

#[cfg(test)]
mod tests {
    use super::*;

    #[test]
    fn numbers_rise() {
        assert!(RULES.is_sorted_by(|one, next| one.number < next.number));
    }

    #[test]
    fn rules_are_found_by_number() {
        for rule in RULES {
            assert_eq!(Rule::of(rule.number).unwrap().given, rule.given);
        }
        assert!(Rule::of(RULES.last().unwrap().number + 1).is_none());
        assert!(Rule::of(u32::MAX).is_none());
    }

    /// A refusal that has a place names it, and no other does.
    #[test]
    fn sentences_name_places() {
        for rule in &RULES[1..] {
            assert_eq!(rule.sentence(777).contains("777"), !rule.place.is_empty());
        }
    }
}
