//! The inputs of document 01's small program: the accepted run, and cases of all others,
//! which share their files by name.

use reference::cache;
use reference::inputs::InputsPlan;
use reference::make::{blob_of, with32, with8};
use reference::small::{CACHE_MOST, IMAGE_MOST, SIGNATURE_MOST};

use crate::case::{operation, Case, CACHE, IMAGE, SIGNATURE};

/// The three files of the accepted run, by name.
pub const ACCEPTED: [&str; 3] = ["signature", "image", "cache"];
/// The arguments of the run that prints the usage: one too many.
pub const TOO_MANY: [&str; 4] = ["one", "two", "three", "four"];
/// What it prints.
pub const USAGE: &str = "usage: admit SIGNATURE IMAGE CACHE\n";
/// A file name that no file has.
const MISSING: &str = "missing";
/// A directory: where the program runs.
const DIRECTORY: &str = ".";
/// The longest cache that is well formed: one entry more is over the limit.
const LONGEST_CACHE: &str = "cache-16368";
/// Files that are one byte over the limit, in the program's order.
const TOO_LONG: [&str; 3] = ["signature-16385", "image-32769", "cache-16385"];

/// An image of three pages, the last one short, with requirements and entitlements.
fn plan() -> InputsPlan {
    let image = (0..9000u32).map(|i| (i * 7 % 251) as u8).collect();
    let mut plan = InputsPlan::new(0x20400, image, 12);
    plan.blobs = vec![(2, blob_of(2, &[0; 4])), (5, blob_of(5, b"<plist/>"))];
    plan.neighbours = vec![[0; 20], [0x7F; 20], [0xFF; 20]];
    plan.covered()
}

/// Zeros up to a length.
fn padded(bytes: &[u8], length: u64) -> Vec<u8> {
    let mut bytes = bytes.to_vec();
    bytes.resize(length as usize, 0);
    bytes
}

/// The cache of the accepted run with as many neighbours as the program reads.
fn longest_cache() -> Vec<u8> {
    let most = (CACHE_MOST - cache::HEAD) / cache::ENTRY;
    InputsPlan { neighbours: (1..most).map(neighbour).collect(), ..plan() }.build().cache
}

/// Hashes that differ in their first two bytes.
fn neighbour(i: u64) -> [u8; 20] {
    let mut hash = [0; 20];
    hash[..2].copy_from_slice(&(96 * i as u16).to_be_bytes());
    hash
}

/// All files, by name.
pub fn files() -> Vec<(&'static str, Vec<u8>)> {
    let good = plan().build();
    let no_code = InputsPlan::new(0x20400, Vec::new(), 12).build();
    let mut uncovered = plan();
    uncovered.directory.special[1] = uncovered.directory.empty();
    let uncovered = uncovered.build();
    let constrained = InputsPlan { category: 1, ..plan() }.build();
    let [long_signature, long_image, long_cache] = TOO_LONG;
    vec![
        ("empty", Vec::new()),
        ("signature-offset", with32(&good.signature, 16 + 8, 35)),
        ("signature-hash-type", with8(&good.signature, 36 + 37, 1)),
        ("signature-uncovered", uncovered.signature),
        ("signature-no-code", no_code.signature),
        ("signature-16384", padded(&good.signature, SIGNATURE_MOST)),
        (long_signature, padded(&good.signature, SIGNATURE_MOST + 1)),
        ("image-short", good.image[..8999].to_vec()),
        ("image-changed", with8(&good.image, 4096, good.image[4096] ^ 1)),
        ("image-32768", padded(&good.image, IMAGE_MOST)),
        (long_image, padded(&good.image, IMAGE_MOST + 1)),
        ("cache-unordered", with8(&good.cache, 24, 0xFF)),
        ("cache-unlisted", InputsPlan::new(0x20400, vec![1], 12).build().cache),
        ("cache-uncovered", uncovered.cache),
        ("cache-constrained", constrained.cache),
        ("cache-no-code", no_code.cache),
        (LONGEST_CACHE, longest_cache()),
        ("cache-16384", padded(&good.cache, CACHE_MOST)),
        (long_cache, padded(&good.cache, CACHE_MOST + 1)),
        ("signature", good.signature),
        ("image", good.image),
        ("cache", good.cache),
    ]
}

/// A run: its name and the names of its three files, in the program's order.
pub struct Run {
    pub name: String,
    pub files: [&'static str; 3],
}

impl Run {
    pub fn case(&self) -> Case {
        let [signature, image, cache] = self.files.map(|name| name.as_bytes().to_vec());
        let fields = vec![(SIGNATURE, signature), (IMAGE, image), (CACHE, cache)];
        Case { name: self.name.clone(), operation: operation::SMALL, fields }
    }
}

/// A list of runs under way.
struct Runs(Vec<Run>);

impl Runs {
    fn add(&mut self, name: impl Into<String>, files: [&'static str; 3]) {
        self.0.push(Run { name: name.into(), files });
    }

    /// The accepted run with some of its files replaced, by position.
    fn replaced(&mut self, name: impl Into<String>, replaced: &[(usize, &'static str)]) {
        let mut files = ACCEPTED;
        replaced.iter().for_each(|&(position, file)| files[position] = file);
        self.add(name, files);
    }
}

/// Every case but the accepted run.
pub fn runs() -> Vec<Run> {
    let mut runs = Runs(Vec::new());
    refused(&mut runs);
    limits(&mut runs);
    one_bad_file(&mut runs);
    two_bad_files(&mut runs);
    three_bad_files(&mut runs);
    bad_beside_refused(&mut runs);
    no_code(&mut runs);
    runs.0
}

/// A refusal or more for each part of the table.
fn refused(runs: &mut Runs) {
    runs.replaced("empty signature", &[(0, "empty")]);
    runs.replaced("offset in the index", &[(0, "signature-offset")]);
    runs.replaced("hash type 1", &[(0, "signature-hash-type")]);
    runs.replaced("image a byte short", &[(1, "image-short")]);
    runs.replaced("empty image", &[(1, "empty")]);
    runs.replaced("slot 2 empty", &[(0, "signature-uncovered"), (2, "cache-uncovered")]);
    runs.replaced("empty cache", &[(2, "empty")]);
    runs.replaced("cache not in order", &[(2, "cache-unordered")]);
    runs.replaced("not in the cache", &[(2, "cache-unlisted")]);
    runs.replaced("constraint", &[(2, "cache-constrained")]);
    runs.replaced("page 1 changed", &[(1, "image-changed")]);
}

/// At each limit, one byte over, and the longest that are accepted.
fn limits(runs: &mut Runs) {
    let at_the_limit = ["signature-16384", "image-32768", "cache-16384"];
    for (position, file) in at_the_limit.into_iter().enumerate() {
        runs.replaced(format!("{file} at the limit"), &[(position, file)]);
    }
    for (position, file) in TOO_LONG.into_iter().enumerate() {
        runs.replaced(format!("{file} over the limit"), &[(position, file)]);
    }
    let [signature, image, _] = at_the_limit;
    runs.replaced("longest cache that is well formed", &[(2, LONGEST_CACHE)]);
    runs.add("longest files that are accepted", [signature, image, LONGEST_CACHE]);
}

/// A way in which a file is bad, with the file of each position.
type Bad = (&'static str, [&'static str; 3]);

const BAD: [Bad; 3] =
    [("missing", [MISSING; 3]), ("a directory", [DIRECTORY; 3]), ("too long", TOO_LONG)];

fn one_bad_file(runs: &mut Runs) {
    for (position, name) in ACCEPTED.into_iter().enumerate() {
        for (what, files) in [BAD[0], BAD[1]] {
            runs.replaced(format!("{name} {what}"), &[(position, files[position])]);
        }
    }
}

/// Each two files, bad in different ways: the first decides.
fn two_bad_files(runs: &mut Runs) {
    let [missing, directory, long] = BAD;
    for (first, second) in [(0, 1), (0, 2), (1, 2)] {
        for (one, other) in [(missing, long), (long, missing), (directory, long), (long, directory)]
        {
            let name = format!("{} {}, {} {}", ACCEPTED[first], one.0, ACCEPTED[second], other.0);
            runs.replaced(name, &[(first, one.1[first]), (second, other.1[second])]);
        }
    }
}

/// All three bad, in each order of the ways.
fn three_bad_files(runs: &mut Runs) {
    for order in [[0, 1, 2], [0, 2, 1], [1, 0, 2], [1, 2, 0], [2, 0, 1], [2, 1, 0]] {
        let ways = order.map(|way| BAD[way]);
        let name = ways.map(|way| way.0).join(", then ");
        runs.add(name, [ways[0].1[0], ways[1].1[1], ways[2].1[2]]);
    }
}

/// A signature that would be refused does not hide a bad file behind it.
fn bad_beside_refused(runs: &mut Runs) {
    for (signature, called) in [("empty", "empty signature"), ("signature-offset", "bad offset")] {
        for (position, (what, files)) in [1, 2].into_iter().flat_map(|p| BAD.map(|bad| (p, bad))) {
            let name = format!("{called}, {} {what}", ACCEPTED[position]);
            runs.replaced(name, &[(0, signature), (position, files[position])]);
        }
    }
}

/// Code limit 0, where an empty image passes: a directory is not an empty file.
fn no_code(runs: &mut Runs) {
    for (name, image, cache) in [
        ("no code, empty image", "empty", "cache-no-code"),
        ("no code, image a directory", DIRECTORY, "cache-no-code"),
        ("no code, empty cache", "empty", "empty"),
        ("no code, cache a directory", "empty", DIRECTORY),
    ] {
        runs.add(name, ["signature-no-code", image, cache]);
    }
}
