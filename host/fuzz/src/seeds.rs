//! Inputs to start from: the calls of the corpora on checks, rechecks and signatures, and a
//! few that no corpus has.

use corpora::answers::answer;
use corpora::case::{Case, MARKS, SIGNATURE, TYPES};
use corpora::cases::checks::{self, Call, Kind};
use corpora::cases::{readers, signatures};
use reference::bytes::be32;
use reference::inputs::Inputs;
use reference::kinds::KINDS;
use reference::superblob;

use crate::cut::{Cut, Operation};

/// The most bytes of an input to start from. Cases that need more are left out: libFuzzer
/// makes inputs as long as the longest that it started from.
pub const MOST_BYTES: usize = 64 * 1024;

pub struct Seed {
    /// The case, and what is asked where it is a signature.
    pub name: String,
    /// What the call answers.
    pub number: u32,
    pub input: Vec<u8>,
}

impl Seed {
    pub fn file_name(&self) -> String {
        self.name.replace('/', " of ")
    }
}

/// No seed where the input would be too long.
fn seed(name: &str, number: u32, cut: &Cut) -> Option<Seed> {
    let short = cut.input_length() <= MOST_BYTES;
    short.then(|| Seed { name: name.to_string(), number, input: cut.input() })
}

fn cut_of<'a>(call: &'a Call, marks: &'a [u8]) -> Cut<'a> {
    let operation = match call.kind {
        Kind::WholeCheck => Operation::Check,
        Kind::Recheck | Kind::RecheckAfter => Operation::Recheck,
    };
    Cut {
        launch: call.launch,
        start: call.start,
        length: call.length,
        image: &call.bytes,
        cache: &call.cache,
        info: call.info.lent(),
        resources: call.resources.lent(),
        marks,
        ..Cut::new(operation, &call.signature)
    }
}

/// Whole checks and rechecks. In a chain the marks go on from call to call.
fn of_checks() -> Vec<Seed> {
    let (mut seeds, mut marks) = (Vec::new(), Vec::new());
    for (call, case) in checks::cases().iter().zip(checks::corpus()) {
        if let Some(own) = case.field(MARKS) {
            marks = own.to_vec();
        }
        let before = marks.clone();
        let (answer, _) = answer(case.operation, &case.lent(), &mut marks);
        seeds.extend(seed(&call.name, answer.number, &cut_of(call, &before)));
    }
    seeds
}

/// Fields, hash, and the lookup of one of the case's types, which take turns.
fn of_signature((turn, case): (usize, Case)) -> Vec<Seed> {
    let [signature, types] = [SIGNATURE, TYPES].map(|field| case.field(field).expect("written"));
    let at = turn % (types.len() / 4) * 4;
    let kind = be32(types, at as u64);
    let found = superblob::find(signature, kind).answer.number;
    let (read, _) = answer(case.operation, &case.lent(), &mut []);
    let find = Cut { kind: kind as u32, ..Cut::new(Operation::Find, signature) };
    let calls = [
        ("fields", read.number, Cut::new(Operation::Read, signature)),
        ("hash", read.number, Cut::new(Operation::CdHash, signature)),
        ("lookup", found, find),
    ];
    let seeds = calls
        .iter()
        .map(|(what, number, cut)| seed(&format!("{}, {what}", case.name), *number, cut));
    seeds.flatten().collect()
}

fn of_signatures() -> Vec<Seed> {
    let cases = signatures::corpus().into_iter().chain(readers::corpus());
    cases.enumerate().flat_map(of_signature).collect()
}

/// One version for each size of the directory's head.
const VERSIONS: [u32; 7] = [0x20001, 0x20100, 0x20200, 0x20300, 0x20400, 0x20500, 0x20600];

/// Everything that can be there is there, under a version and a hash kind, alone in its cache.
fn full(version: u32, kind: u8) -> Inputs {
    let mut plan = checks::full_of(kind);
    plan.directory.version = version;
    plan.neighbours.clear();
    plan.build()
}

/// Accepted calls under a version and a hash kind: a whole check whose directory stays listed when
/// the signature is changed, which no corpus has, and a recheck of the whole image.
fn of_version(version: u32, kind: u8) -> Vec<Seed> {
    let inputs = full(version, kind);
    let marks = vec![0; inputs.pages];
    let (image, marks) = (&inputs.image[..], &marks[..]);
    let check = Cut {
        launch: inputs.launch,
        listed: true,
        typed: true,
        image,
        cache: &inputs.cache,
        info: inputs.info.as_deref(),
        resources: inputs.resources.as_deref(),
        marks,
        ..Cut::new(Operation::Check, &inputs.signature)
    };
    let length = image.len() as u64;
    let recheck = Cut { image, length, marks, ..Cut::new(Operation::Recheck, &inputs.signature) };
    let calls = [("listed check", check), ("whole recheck", recheck)];
    let name = |what| format!("{version:x}, kind {kind}, {what}");
    calls.iter().filter_map(|(what, cut)| seed(&name(what), 0, cut)).collect()
}

pub fn seeds() -> Vec<Seed> {
    let pairs = VERSIONS.into_iter().flat_map(|version| KINDS.map(|kind| (version, kind)));
    let versions = pairs.flat_map(|(version, kind)| of_version(version, kind));
    of_checks().into_iter().chain(of_signatures()).chain(versions).collect()
}
