//! Signatures whose fields all differ from each other, so that two that are taken for one
//! another show, and the same signatures refused by each of tests 1 to 18.

use reference::kinds::{
    CS_HASHTYPE_SHA1, CS_HASHTYPE_SHA256, CS_HASHTYPE_SHA256_TRUNCATED, CS_HASHTYPE_SHA384,
};
use reference::make::{blob_of, width, DirectoryPlan, SignaturePlan};

use super::signatures::faults::{Subject, TESTS};
use super::signatures::{looked_up, Named, KNOWN};
use super::{WITH_CODE_LIMIT_64, WITH_SCATTER};
use crate::case::Case;

/// Looked up beside the known types.
const UNKNOWN: [u32; 9] = [1, 3, 4, 6, 12, 0x1005, 0xFFFF, 0x10001, u32::MAX];

/// What tells one signature from another.
struct Reader {
    version: u32,
    hash_type: u8,
    flags: u32,
    platform: u8,
    page_shift: u8,
    special: usize,
    code_limit: u32,
    /// Not 0 where it is the code limit.
    code_limit64: u64,
    identifier: usize,
    /// The types of all blobs, the directory's 0 among them.
    kinds: &'static [u32],
    /// Where faults over positions are made.
    position: usize,
}

/// Versions, page sizes, code limits and positions of the directory. The page size of some is their
/// code limit; the fields of the others are all different.
const READERS: [Reader; 12] = [
    Reader {
        version: 0x20001,
        hash_type: CS_HASHTYPE_SHA256,
        flags: 0x1_0002,
        platform: 7,
        page_shift: 12,
        special: 3,
        code_limit: 4 * 4096 + 77,
        code_limit64: 0,
        identifier: 9,
        kinds: &[0, 5, 2],
        position: 1,
    },
    Reader {
        version: 0x20102,
        hash_type: CS_HASHTYPE_SHA256,
        flags: 0x202,
        platform: 1,
        page_shift: 14,
        special: 5,
        code_limit: 3 * 16384,
        code_limit64: 0,
        identifier: 21,
        kinds: &[0x10000, 0, 7, 11],
        position: 2,
    },
    Reader {
        version: 0x20200,
        hash_type: CS_HASHTYPE_SHA256,
        flags: 0x3_3F02,
        platform: 200,
        page_shift: 12,
        special: 11,
        code_limit: 6 * 4096 - 1,
        code_limit64: 0,
        identifier: 30,
        kinds: &[8, 9, 0x1004, 10, 0],
        position: 3,
    },
    Reader {
        version: 0x20400,
        hash_type: CS_HASHTYPE_SHA256,
        flags: 0x2_0000,
        platform: 6,
        page_shift: 14,
        special: 8,
        code_limit: 16384 * 9 + 1,
        code_limit64: 0,
        identifier: 4,
        kinds: &[2, 5, 7, 0, 0x1000, 0x10000],
        position: 4,
    },
    Reader {
        version: 0x20600,
        hash_type: CS_HASHTYPE_SHA256,
        flags: 0x3_1300,
        platform: 255,
        page_shift: 12,
        special: 4,
        code_limit: 13 * 4096 + 4095,
        code_limit64: 0,
        identifier: 50,
        kinds: &[0x1002, 2, 0, 5, 7, 8, 9, 10, 11, 0x1003, 0x10000],
        position: 4,
    },
    Reader {
        version: 0x20301,
        hash_type: CS_HASHTYPE_SHA256,
        flags: 0x500,
        platform: 3,
        page_shift: 0,
        special: 6,
        code_limit: 54_321,
        code_limit64: 0,
        identifier: 17,
        kinds: &[11, 0, 2],
        position: 1,
    },
    Reader {
        version: 0x20300,
        hash_type: CS_HASHTYPE_SHA256,
        flags: 0x1100,
        platform: 5,
        page_shift: 12,
        special: 7,
        code_limit: 99_999,
        code_limit64: 5 * 4096 + 9,
        identifier: 40,
        kinds: &[7, 0, 5],
        position: 2,
    },
    Reader {
        version: 0x20500,
        hash_type: CS_HASHTYPE_SHA256,
        flags: 0x2202,
        platform: 9,
        page_shift: 0,
        special: 10,
        code_limit: 77,
        code_limit64: 0x1_2345_6789,
        identifier: 11,
        kinds: &[9, 0x1001, 0],
        position: 1,
    },
    Reader {
        version: 0x205FF,
        hash_type: CS_HASHTYPE_SHA256,
        flags: 0x800,
        platform: 4,
        page_shift: 0,
        special: 9,
        code_limit: 0,
        code_limit64: 0x4_0000_0000,
        identifier: 26,
        kinds: &[0, 0x10000, 10],
        position: 2,
    },
    Reader {
        version: 0x200FF,
        hash_type: CS_HASHTYPE_SHA1,
        flags: 0x1_2000,
        platform: 8,
        page_shift: 12,
        special: 2,
        code_limit: 7 * 4096 - 5,
        code_limit64: 0,
        identifier: 15,
        kinds: &[5, 0, 2, 7],
        position: 2,
    },
    Reader {
        version: 0x20201,
        hash_type: CS_HASHTYPE_SHA256_TRUNCATED,
        flags: 0x1302,
        platform: 90,
        page_shift: 14,
        special: 11,
        code_limit: 5 * 16384 + 3,
        code_limit64: 0,
        identifier: 33,
        kinds: &[0, 8, 0x10000],
        position: 1,
    },
    Reader {
        version: 0x204FF,
        hash_type: CS_HASHTYPE_SHA384,
        flags: 0x402,
        platform: 2,
        page_shift: 12,
        special: 7,
        code_limit: 1,
        code_limit64: 9 * 4096 + 1,
        identifier: 28,
        kinds: &[2, 0x1000, 11, 0],
        position: 2,
    },
];

impl Reader {
    /// The code limit that is read.
    fn limit(&self) -> u64 {
        match self.code_limit64 {
            0 => self.code_limit.into(),
            limit => limit,
        }
    }

    fn directory(&self) -> DirectoryPlan {
        let mut plan = DirectoryPlan::of_kind(self.version, self.hash_type);
        plan.flags = self.flags;
        plan.platform = self.platform;
        plan.page_shift = self.page_shift;
        (plan.code_limit, plan.code_limit64) = (self.code_limit, self.code_limit64);
        plan.identifier = vec![b'r'; self.identifier];
        plan.special = vec![vec![0xA5; width(self.hash_type)]; self.special];
        let pages = match self.page_shift {
            0 => 1,
            shift => self.limit().div_ceil(1 << shift),
        };
        plan.code = vec![vec![0xC7; width(self.hash_type)]; pages as usize];
        plan
    }

    /// A blob of each type, no two of the same length.
    fn subject(&self) -> Subject {
        let blob = |(position, &kind): (usize, &u32)| match kind {
            0 => (kind, self.directory().bytes()),
            _ => (kind, blob_of(kind, &vec![0xB0; 3 + 5 * position])),
        };
        let plan = SignaturePlan::new(self.kinds.iter().enumerate().map(blob).collect());
        Subject::new(plan, &self.directory())
    }

    /// Whether its version has what the test looks at.
    fn has(&self, test: u32) -> bool {
        match test {
            15 => self.version >= WITH_CODE_LIMIT_64,
            35 => self.version >= WITH_SCATTER,
            _ => true,
        }
    }

    /// The signature, and its faults: those over positions at a place that is not the
    /// number.
    fn cases(&self) -> Vec<Named> {
        let subject = self.subject();
        let name = format!("reader of version {:#x}", self.version);
        let mut cases = vec![Named { name: name.clone(), signature: subject.bytes() }];
        for number in TESTS.into_iter().filter(|&number| self.has(number)) {
            let mut signature = subject.bytes();
            subject.damage(&mut signature, number, self.position);
            cases.push(Named { name: format!("{name}, refused by {number}"), signature });
        }
        cases
    }
}

/// The cases of the corpus.
pub fn corpus() -> Vec<Case> {
    let types = [&KNOWN[..], &UNKNOWN].concat();
    READERS.iter().flat_map(Reader::cases).map(|named| looked_up(named, &types)).collect()
}
