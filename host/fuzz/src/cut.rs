//! How an input is cut into what one call is lent. Every input can be cut.
//!
//! | Bytes | What |
//! |---|---|
//! | 0 | the operation, modulo their number |
//! | 1 | flags |
//! | 2, 3 | launch type, validation category |
//! | 4 to 7 | the slot type of a lookup |
//! | 8 to 15, 16 to 23 | start and length of a recheck's range |
//! | 24 to 33 | lengths of the five parts that follow, two bytes each |
//!
//! Numbers are little-endian. The parts: image (or the pages of a recheck), cache, Info.plist,
//! CodeResources, marks; what is left is the signature. Bytes that are missing from the first
//! 34 are 0, and a part ends where the input ends.

use reference::launch::Launch;

#[derive(Clone, Copy, Debug, PartialEq, Eq)]
pub enum Operation {
    Check,
    Recheck,
    Find,
    Read,
    CdHash,
}

const OPERATIONS: [Operation; 5] =
    [Operation::Check, Operation::Recheck, Operation::Find, Operation::Read, Operation::CdHash];

const HEAD: usize = 34;
/// Where the lengths of the parts stand.
const LENGTHS: usize = 24;

const INFO_THERE: u8 = 1;
const RESOURCES_THERE: u8 = 2;
const ON_AUTHORIZED_VOLUME: u8 = 4;
const ON_SYSTEM_VOLUME: u8 = 8;
const PARENT_IS_INIT: u8 = 16;
const LISTED: u8 = 32;
const TYPED: u8 = 64;

#[derive(Clone, Copy, Debug)]
pub struct Cut<'a> {
    pub operation: Operation,
    pub launch: Launch,
    /// The cache's first entry gets the directory's hash before the call, which no change of
    /// the input would hit upon.
    pub listed: bool,
    /// It gets the directory's hash type too.
    pub typed: bool,
    pub kind: u32,
    pub start: u64,
    pub length: u64,
    pub image: &'a [u8],
    pub cache: &'a [u8],
    pub info: Option<&'a [u8]>,
    pub resources: Option<&'a [u8]>,
    pub marks: &'a [u8],
    pub signature: &'a [u8],
}

/// N bytes of the head.
fn array<const N: usize>(head: &[u8; HEAD], at: usize) -> [u8; N] {
    std::array::from_fn(|i| head[at + i])
}

impl<'a> Cut<'a> {
    /// A call that is lent a signature alone.
    pub fn new(operation: Operation, signature: &'a [u8]) -> Cut<'a> {
        Cut {
            operation,
            launch: Launch::default(),
            listed: false,
            typed: false,
            kind: 0,
            start: 0,
            length: 0,
            image: &[],
            cache: &[],
            info: None,
            resources: None,
            marks: &[],
            signature,
        }
    }

    pub fn of(input: &'a [u8]) -> Cut<'a> {
        let (start, mut rest) = input.split_at(input.len().min(HEAD));
        let mut head = [0; HEAD];
        head[..start.len()].copy_from_slice(start);
        let mut part = |i: usize| {
            let length: usize = u16::from_le_bytes(array(&head, LENGTHS + 2 * i)).into();
            let (part, left) = rest.split_at(length.min(rest.len()));
            rest = left;
            part
        };
        let flag = |flag| head[1] & flag != 0;
        Cut {
            operation: OPERATIONS[usize::from(head[0]) % OPERATIONS.len()],
            launch: Launch {
                on_authorized_volume: flag(ON_AUTHORIZED_VOLUME),
                on_system_volume: flag(ON_SYSTEM_VOLUME),
                launch_type: head[2],
                validation_category: head[3],
                parent_is_init: flag(PARENT_IS_INIT),
            },
            listed: flag(LISTED),
            typed: flag(TYPED),
            kind: u32::from_le_bytes(array(&head, 4)),
            start: u64::from_le_bytes(array(&head, 8)),
            length: u64::from_le_bytes(array(&head, 16)),
            image: part(0),
            cache: part(1),
            info: Some(part(2)).filter(|_| flag(INFO_THERE)),
            resources: Some(part(3)).filter(|_| flag(RESOURCES_THERE)),
            marks: part(4),
            signature: rest,
        }
    }

    fn flags(&self) -> u8 {
        let flags = [
            (self.info.is_some(), INFO_THERE),
            (self.resources.is_some(), RESOURCES_THERE),
            (self.launch.on_authorized_volume, ON_AUTHORIZED_VOLUME),
            (self.launch.on_system_volume, ON_SYSTEM_VOLUME),
            (self.launch.parent_is_init, PARENT_IS_INIT),
            (self.listed, LISTED),
            (self.typed, TYPED),
        ];
        flags.iter().filter(|(set, _)| *set).map(|(_, flag)| flag).sum()
    }

    /// What is cut after the head, but for the signature.
    fn parts(&self) -> [&'a [u8]; 5] {
        let (info, resources) = (self.info.unwrap_or_default(), self.resources.unwrap_or_default());
        [self.image, self.cache, info, resources, self.marks]
    }

    /// Bytes of the input that is cut so.
    pub fn input_length(&self) -> usize {
        let parts: usize = self.parts().iter().map(|part| part.len()).sum();
        HEAD + parts + self.signature.len()
    }

    /// The input that is cut so. Each part but the signature has under 65,536 bytes.
    pub fn input(&self) -> Vec<u8> {
        let operation = OPERATIONS.iter().position(|o| *o == self.operation).expect("listed");
        let mut input = vec![operation as u8, self.flags()];
        input.extend([self.launch.launch_type, self.launch.validation_category]);
        input.extend(self.kind.to_le_bytes());
        input.extend(self.start.to_le_bytes());
        input.extend(self.length.to_le_bytes());
        for part in self.parts() {
            input.extend(u16::try_from(part.len()).expect("a short part").to_le_bytes());
        }
        self.parts().iter().for_each(|part| input.extend(*part));
        input.extend(self.signature);
        input
    }
}
