//! Images of many gigabytes: what is not examined is not read, what takes long says so on a
//! terminal, and a file that is cut meanwhile is an error.

mod scratch;
mod terminal;

use std::fs::{self, File, OpenOptions};
use std::io::Write;
use std::os::unix::process::ExitStatusExt;
use std::process::{Child, Command, Stdio};
use std::thread::sleep;
use std::time::{Duration, Instant};

use reference::inputs::{Inputs, InputsPlan};
use reference::make::DirectoryPlan;
use scratch::{check, ended, limited, recheck, sample, tool, Run, Scratch, ACCEPTED, TOOL};

const MIB: u64 = 1 << 20;
const HUGE: u64 = 64 << 30;
/// Hashing as much takes between one second and some.
const SLOW: u64 = 640 * MIB;
/// What is answered at once comes within this time; hashing four gigabytes takes longer.
const AT_ONCE: Duration = Duration::from_secs(8);
/// KiB of memory that the tool may have of its own.
const LITTLE: &str = "65536";

/// The signature and the cache of an image of zeros, which is not built.
fn zeros(limit: u64, page_shift: u8) -> Inputs {
    let page = vec![0; if page_shift == 0 { 0 } else { 1 << page_shift }];
    let slots = if page_shift == 0 { 1 } else { limit.div_ceil(1 << page_shift) };
    let mut plan = InputsPlan::new(0x20400, Vec::new(), page_shift);
    let code_limit64 = if limit > u32::MAX.into() { limit } else { 0 };
    plan.directory = DirectoryPlan {
        code_limit: u32::try_from(limit).unwrap_or(u32::MAX),
        code_limit64,
        code: vec![plan.directory.digest(&page); slots as usize],
        ..plan.directory
    };
    plan.build()
}

/// A run that may not have more memory of its own than a little; a mapped file is not counted.
fn run_with_little(list: &[&str]) -> Run {
    let mut command = Command::new("sh");
    command.args(["-c", "ulimit -d \"$1\"; shift; exec \"$@\"", "sh", LITTLE, TOOL]).args(list);
    let start = Instant::now();
    let done = ended(command.stdin(Stdio::null()).output().unwrap());
    assert!(start.elapsed() < AT_ONCE, "it took {:?}", start.elapsed());
    done
}

/// The cache refuses four gigabytes, and sixteen, before a byte of them is read, and a cache that
/// is missing is told before that.
#[test]
fn small_files_decide_first() {
    for limit in [u32::MAX.into(), 16 << 30] {
        decide_first(limit);
    }
}

fn decide_first(limit: u64) {
    let scratch = Scratch::new("decide");
    let inputs = zeros(limit, 0);
    let signature = scratch.file("signature", &inputs.signature);
    let image = scratch.sparse("image", HUGE);
    let empty = scratch.file("cache", &reference::make::CachePlan::new(Vec::new()).bytes());
    let (status, out, err) = run_with_little(&check(&signature, &image, &empty));
    assert!(status == 1 && out.starts_with("26 0 refused: "), "{out} {err}");
    let missing = scratch.path("missing");
    let (status, out, err) = run_with_little(&check(&signature, &image, &missing));
    assert_eq!((status, out.as_str()), (2, ""));
    assert!(err.contains("cannot read") && err.contains("missing"), "{err}");
}

/// Of an image only the bytes below the code limit are read, from a file and from a pipe.
#[test]
fn images_longer_than_the_code_limit() {
    let scratch = Scratch::new("longer");
    let (signature, cache) = (sample("signature.bin"), sample("cache.bin"));
    let bytes = fs::read(sample("image.bin")).unwrap();
    let image = scratch.file("image", &bytes);
    OpenOptions::new().write(true).open(&image).unwrap().set_len(HUGE).unwrap();
    let (status, out, err) = run_with_little(&check(&signature, &image, &cache));
    assert!(status == 0 && out == ACCEPTED, "{out} {err}");
    let mut child = limited(&check(&signature, "/dev/stdin", &cache))
        .stdin(Stdio::piped())
        .stdout(Stdio::piped())
        .spawn()
        .unwrap();
    let mut pipe = child.stdin.take().unwrap();
    pipe.write_all(&bytes).unwrap();
    // The pipe stays open: a reader that wants more bytes would wait for ever.
    let done = child.wait_with_output().unwrap();
    assert!(done.status.success());
    drop(pipe);
}

/// A recheck of two bytes on both sides of the fourth gigabyte's end, and one that ends above the
/// code limit.
#[test]
fn rechecks_across_4_gib() {
    let scratch = Scratch::new("across");
    let inputs = zeros((4 << 30) + 16_384, 14);
    let signature = scratch.file("signature", &inputs.signature);
    let mut old = vec![0; inputs.pages];
    (old[262_143], old[262_144]) = (1, 1);
    let marks = scratch.file("marks", &old);
    let pages = scratch.file("pages", &[0; 32_768]);
    let (status, out, err) =
        run_with_little(&recheck(&signature, ["4294967295", "2"], &pages, &marks));
    assert!(status == 0 && out.starts_with("0 0 pages agree"), "{out} {err}");
    assert!(scratch.read("marks").iter().all(|mark| *mark == 0));
    let list = recheck(&signature, ["4294983680", "1"], &pages, &marks);
    let (status, out, err) = run_with_little(&list);
    assert!(status == 1 && out.starts_with("32 0 refused: "), "{out} {err}");
}

/// Runs the tool, which has mapped the file and now hashes it for a second and more.
fn mapping(list: &[&str], path: &str) -> Child {
    let mut child = tool(list).stdout(Stdio::piped()).stderr(Stdio::piped()).spawn().unwrap();
    let maps = format!("/proc/{}/maps", child.id());
    while !fs::read_to_string(&maps).unwrap().contains(path) {
        assert!(child.try_wait().unwrap().is_none(), "it ended before it mapped {path}");
        sleep(Duration::from_millis(2));
    }
    child
}

/// Runs the tool, and does `then` while it hashes the file.
fn run_and(list: &[&str], path: &str, then: impl FnOnce()) -> Run {
    let child = mapping(list, path);
    then();
    ended(child.wait_with_output().unwrap())
}

fn cut_and_end(list: &[&str], path: &str) -> Run {
    run_and(list, path, || drop(File::create(path).unwrap()))
}

/// A run that is interrupted ends as any other would, and leaves nothing beside the marks.
#[test]
fn interrupted_runs() {
    let scratch = Scratch::new("interrupted");
    let inputs = zeros(SLOW, 14);
    let signature = scratch.file("signature", &inputs.signature);
    let cache = scratch.file("cache", &inputs.cache);
    let image = scratch.sparse("image", SLOW);
    let marks = scratch.path("marks");
    let mut list = check(&signature, &image, &cache);
    list.extend(["--marks", &marks]);
    for (name, number) in [("HUP", 1), ("INT", 2), ("TERM", 15)] {
        let mut child = mapping(&list, &image);
        assert_eq!(scratch.names().len(), 4, "the new file is there");
        Command::new("kill").args(["-s", name, &child.id().to_string()]).status().unwrap();
        assert_eq!(child.wait().unwrap().signal(), Some(number), "{name}");
        assert_eq!(scratch.names(), ["cache", "image", "signature"], "{name}");
    }
}

/// A file that is cut while it is examined is an input error. No marks are written, and
/// nothing is left beside them.
#[test]
fn files_that_are_cut() {
    let scratch = Scratch::new("cut");
    let inputs = zeros(SLOW, 14);
    let signature = scratch.file("signature", &inputs.signature);
    let cache = scratch.file("cache", &inputs.cache);
    let before = vec![1; inputs.pages];
    let marks = scratch.file("marks", &before);
    let sentence = "a file changed or could not be read while it was checked";
    let said = format!("trewizlow: {sentence}\n");
    let image = scratch.sparse("image", SLOW);
    let mut list = check(&signature, &image, &cache);
    list.extend(["--marks", &marks]);
    assert_eq!(cut_and_end(&list, &image), (2, "".into(), said.clone()));
    let image = scratch.sparse("image", SLOW);
    let length = SLOW.to_string();
    let mut list = recheck(&signature, ["0", &length], &image, &marks);
    list.push("--json");
    let object = format!("{{\"error\":\"{sentence}\"}}\n");
    assert_eq!(cut_and_end(&list, &image), (2, object, said));
    assert_eq!(scratch.read("marks"), before);
    assert_eq!(scratch.names(), ["cache", "image", "marks", "signature"]);
}

/// An input that is moved to the marks' place during a recheck, which the lock does not
/// prevent, is left alone.
#[test]
fn an_input_in_the_place_of_the_marks() {
    let scratch = Scratch::new("moved");
    let inputs = zeros(SLOW, 14);
    let signature = scratch.file("signature", &inputs.signature);
    let pages = scratch.sparse("pages", SLOW);
    let marks = scratch.file("marks", &vec![1; inputs.pages]);
    let length = SLOW.to_string();
    let list = recheck(&signature, ["0", &length], &pages, &marks);
    // The fourth file is the new one, which is made behind the mapping and before the recheck.
    let moved = || {
        let start = Instant::now();
        while scratch.names().len() < 4 && start.elapsed() < AT_ONCE {
            sleep(Duration::from_millis(2));
        }
        fs::rename(&signature, &marks).unwrap();
    };
    let (status, out, err) = run_and(&list, &pages, moved);
    assert!(status == 2 && out.starts_with("0 0 pages agree"), "{out} {err}");
    assert!(err.contains("another file took its place"), "{err}");
    assert_eq!(scratch.read("marks"), inputs.signature);
    assert_eq!(scratch.names(), ["marks", "pages"]);
}

/// What a terminal shows on standard error while the tool runs. When the first line has come,
/// `then` is done.
fn shown(list: &[&str], then: impl FnOnce()) -> String {
    let (reader, screen) = terminal::pair();
    let mut child = limited(list).stdout(Stdio::null()).stderr(screen).spawn().unwrap();
    let text = terminal::written(reader, then);
    assert_eq!(child.wait().unwrap().code(), Some(0));
    text
}

const CLEAR: &str = "\r\x1b[K";

/// On a terminal a check that takes long says so in one line, which is gone at the end;
/// elsewhere nothing is said.
#[test]
fn progress_of_a_check() {
    let scratch = Scratch::new("progress");
    let inputs = zeros(SLOW, 14);
    let signature = scratch.file("signature", &inputs.signature);
    let cache = scratch.file("cache", &inputs.cache);
    let image = scratch.sparse("image", SLOW);
    let list = check(&signature, &image, &cache);
    let quiet = tool(&list).stdout(Stdio::null()).stderr(Stdio::piped()).spawn().unwrap();
    let text = shown(&list, || ());
    assert!(text.starts_with(&format!("{CLEAR}trewizlow: checking 640 MiB, ")), "{text:?}");
    assert!(text.ends_with(CLEAR) && !text.contains('\n'), "{text:?}");
    assert_eq!(quiet.wait_with_output().unwrap().stderr, b"");
}

#[test]
fn progress_of_a_recheck() {
    let scratch = Scratch::new("progress-recheck");
    let inputs = zeros(SLOW, 14);
    let signature = scratch.file("signature", &inputs.signature);
    let (pages, marks) =
        (scratch.sparse("pages", SLOW), scratch.file("marks", &vec![1; inputs.pages]));
    let length = SLOW.to_string();
    let text = shown(&recheck(&signature, ["0", &length], &pages, &marks), || ());
    assert!(text.starts_with(&format!("{CLEAR}trewizlow: rechecking 640 MiB, ")), "{text:?}");
    assert!(text.ends_with(CLEAR) && !text.contains('\n'), "{text:?}");
}

#[test]
fn progress_of_waiting() {
    let scratch = Scratch::new("waiting");
    let (signature, pages) = (sample("signature.bin"), scratch.file("pages", b""));
    let marks = scratch.file("marks", &[0, 0, 0]);
    let held = File::open(&marks).unwrap();
    held.lock().unwrap();
    let list = recheck(&signature, ["0", "0"], &pages, &marks);
    let text = shown(&list, || held.unlock().unwrap());
    let line = format!("{CLEAR}trewizlow: waiting for another run to release the marks, ");
    assert!(text.starts_with(&line) && text.ends_with(CLEAR), "{text:?}");
    assert!(!text.contains('\n'), "{text:?}");
}
