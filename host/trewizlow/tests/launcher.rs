//! bin/trewizlow, .ci/run, tools/staticlib and the makers beside it in a copied tree, with stubs
//! in the place of `rt` and `cargo`, so that nothing is proved. A CDPATH that leads elsewhere is
//! set throughout.

mod scratch;

use std::fs::{self, copy, create_dir_all, File, Permissions};
use std::os::unix::fs::PermissionsExt;
use std::path::Path;
use std::process::Command;
use std::time::{Duration, SystemTime};

use scratch::{ended, Run, Scratch};

const TOP: &str = concat!(env!("CARGO_MANIFEST_DIR"), "/../..");
/// With a blank, so that a name that is not quoted is seen.
const TREE: &str = "a tree";
const TOOL: &str = "a tree/host/target/release/trewizlow";
const ARCHIVE: &str = "a tree/target/staticlib/libtrewizlow.a";

/// What is copied from the repository.
const COMMANDS: [&str; 5] =
    ["bin/trewizlow", ".ci/run", "tools/make-admit", "tools/make-corpora", "tools/staticlib"];

/// Writes its call and makes the archive that tools/staticlib copies.
const RT: &str = r#"#!/bin/sh
echo "rt $* in $(pwd)" >>"$CALLS"
mkdir -p out && : >out/libtrewizlow_c.a
"#;

/// Writes its call. What it builds is a tool that prints its arguments.
const CARGO: &str = r#"#!/bin/sh
echo "cargo $*" >>"$CALLS"
[ "$1" = build ] || exit 0
mkdir -p "$CARGO_TARGET_DIR/release"
printf '#!/bin/sh\necho tool "$@"\n' >"$CARGO_TARGET_DIR/release/trewizlow"
chmod +x "$CARGO_TARGET_DIR/release/trewizlow"
"#;

/// A file of each kind that the library is made from.
const LIBRARY: [&str; 4] = [
    "crates/one/src/lib.rt",
    "crates/two/specs/Rows.antt",
    "crates/one/proofs/Exact.antt",
    "crates.txt",
];

/// A file of each kind that the tool is made from beside the library.
const BESIDE: [&str; 4] =
    ["host/trewizlow/src/lib.rs", "host/archive.rs", "host/Cargo.toml", "host/Cargo.lock"];

fn script(path: &Path, text: &str) {
    create_dir_all(path.parent().unwrap()).unwrap();
    fs::write(path, text).unwrap();
    fs::set_permissions(path, Permissions::from_mode(0o755)).unwrap();
}

fn modified(path: &Path, seconds_ago: u64) {
    let time = SystemTime::now() - Duration::from_secs(seconds_ago);
    File::options().write(true).open(path).unwrap().set_modified(time).unwrap();
}

/// The tree, the stubs, and a directory that a search by CDPATH would find.
fn tree(name: &str) -> Scratch {
    let scratch = Scratch::new(name);
    create_dir_all(scratch.0.join(TREE).join("crates/trewizlow_c")).unwrap();
    for name in COMMANDS {
        let path = scratch.0.join(TREE).join(name);
        create_dir_all(path.parent().unwrap()).unwrap();
        copy(Path::new(TOP).join(name), &path).unwrap();
        create_dir_all(scratch.0.join("elsewhere").join(name).parent().unwrap()).unwrap();
    }
    for source in LIBRARY.iter().chain(&BESIDE) {
        let path = scratch.0.join(TREE).join(source);
        script(&path, "source");
        modified(&path, 1000);
    }
    script(&scratch.0.join("stubs/rt"), RT);
    script(&scratch.0.join("stubs/cargo"), CARGO);
    scratch
}

/// Runs a line of shell at the top of the tree.
fn shell(scratch: &Scratch, line: &str) -> Run {
    let path = format!("{}:{}", scratch.path("stubs"), std::env::var("PATH").unwrap());
    let mut command = Command::new("sh");
    command.args(["-c", line]).current_dir(scratch.0.join(TREE)).env("PATH", path);
    command.env("CDPATH", scratch.path("elsewhere")).env("CALLS", scratch.path("calls"));
    ended(command.output().unwrap())
}

/// What the stubs were called for since the last time.
fn calls(scratch: &Scratch) -> Vec<String> {
    let calls = fs::read_to_string(scratch.0.join("calls")).unwrap_or_default();
    let _ = fs::remove_file(scratch.0.join("calls"));
    calls.lines().map(String::from).collect()
}

/// What stands in a call of cargo that runs or builds something in the tree.
fn manifest(scratch: &Scratch) -> String {
    format!("--quiet --release --manifest-path {}/host/Cargo.toml", scratch.path(TREE))
}

fn cargo_build(scratch: &Scratch) -> String {
    format!("cargo build {} -p trewizlow", manifest(scratch))
}

/// What tools/staticlib calls.
fn rt_lib(scratch: &Scratch, krate: &str) -> String {
    format!("rt lib --cpu=x86-64 in {}/crates/{krate}", scratch.path(TREE))
}

fn all_calls(scratch: &Scratch) -> Vec<String> {
    vec![rt_lib(scratch, "trewizlow_c"), cargo_build(scratch)]
}

/// It proves and builds on first use alone, and hands the arguments on.
#[test]
fn first_use() {
    let scratch = tree("first-use");
    let (status, out, _) = shell(&scratch, "bin/trewizlow show 'a b' --json");
    assert_eq!((status, out.as_str()), (0, "tool show a b --json\n"));
    assert_eq!(calls(&scratch), all_calls(&scratch));
    assert_eq!(shell(&scratch, "bin/trewizlow show"), (0, "tool show\n".into(), "".into()));
    assert_eq!(calls(&scratch), [""; 0]);
    fs::remove_file(scratch.0.join(TOOL)).unwrap();
    assert_eq!(shell(&scratch, "bin/trewizlow").0, 0);
    assert_eq!(calls(&scratch), [cargo_build(&scratch)]);
}

/// What fails before there is a tool is no refusal, which has status 1.
#[test]
fn first_use_that_fails() {
    for name in ["mktemp", "touch", "rt", "cargo"] {
        let scratch = tree("fails");
        script(&scratch.0.join("stubs").join(name), "#!/bin/sh\nexit 1\n");
        let (status, out, err) = shell(&scratch, "bin/trewizlow show");
        assert_eq!((status, out.as_str()), (2, ""), "{name}");
        assert!(err.contains("bin/trewizlow: ") && err.contains(name), "{name}: {err}");
        assert!(err.trim_end().ends_with(" failed"), "{name}: {err}");
    }
}

/// With a source that is newer than what was made, the old tool runs, and the command that is
/// told proves and builds anew.
fn told_of(scratch: &Scratch, source: &str, made: &str) {
    modified(&scratch.0.join(made), 500);
    let path = scratch.0.join(TREE).join(source);
    modified(&path, 100);
    let (status, out, err) = shell(scratch, "bin/trewizlow show");
    assert_eq!((status, out.as_str()), (0, "tool show\n"), "{source}");
    let (said, command) = err.trim_end().split_once("prove and build anew: ").expect(source);
    assert!(said.contains("source files are newer"), "{source}");
    assert_eq!(calls(scratch), [""; 0], "{source}");
    assert_eq!(shell(scratch, command).0, 0, "{source}");
    assert_eq!(calls(scratch), all_calls(scratch), "{source}");
    assert_eq!(shell(scratch, "bin/trewizlow show").2, "", "{source}");
    modified(&path, 1000);
}

#[test]
fn sources_newer_than_the_tool() {
    let scratch = tree("newer");
    shell(&scratch, "bin/trewizlow");
    calls(&scratch);
    LIBRARY.iter().chain(&BESIDE).for_each(|source| told_of(&scratch, source, TOOL));
}

/// The tool was built by hand since, over the old library.
#[test]
fn sources_newer_than_the_library() {
    let scratch = tree("stale");
    shell(&scratch, "bin/trewizlow");
    calls(&scratch);
    LIBRARY.iter().for_each(|source| told_of(&scratch, source, ARCHIVE));
}

/// A proof that changes nothing may leave the archive as it is.
#[test]
fn archives_that_stay() {
    let scratch = tree("stays");
    shell(&scratch, "bin/trewizlow");
    script(&scratch.0.join("stubs/rt"), "#!/bin/sh\necho \"rt $* in $(pwd)\" >>\"$CALLS\"\n");
    calls(&scratch);
    told_of(&scratch, LIBRARY[0], ARCHIVE);
}

/// The command stands alone: nothing is checked in passing.
#[test]
fn rebuild_with_arguments() {
    let scratch = tree("rebuild");
    let (status, out, _) = shell(&scratch, "bin/trewizlow --rebuild check");
    assert_eq!((status, out.as_str()), (2, ""));
    assert_eq!(calls(&scratch), [""; 0]);
}

/// Each static library is proved in its crate and its archive copied. Where that fails, what was
/// copied before stays.
#[test]
fn static_libraries() {
    let scratch = tree("static");
    for (name, krate) in [("trewizlow", "trewizlow_c"), ("digest_c", "digest_c")] {
        let at_top = |path: &str| scratch.0.join(TREE).join(path);
        create_dir_all(at_top("crates").join(krate)).unwrap();
        let archive = at_top(&format!("target/staticlib/lib{name}.a"));
        let stub = format!("{RT}echo {name} >out/lib{krate}.a\n[ ! -e ../../fails ]\n");
        script(&scratch.0.join("stubs/rt"), &stub);
        let command = format!("tools/staticlib {name}");
        assert_eq!(shell(&scratch, &command), (0, "".into(), "".into()));
        assert_eq!(fs::read_to_string(&archive).unwrap(), format!("{name}\n"));
        fs::write(&archive, "before").unwrap();
        fs::write(at_top("fails"), "").unwrap();
        let said = format!("tools/staticlib: rt lib failed in crates/{krate}\n");
        assert_eq!(shell(&scratch, &command), (1, "".into(), said));
        assert_eq!(fs::read_to_string(&archive).unwrap(), "before");
        fs::remove_file(at_top("fails")).unwrap();
        assert_eq!(calls(&scratch), [rt_lib(&scratch, krate), rt_lib(&scratch, krate)]);
    }
    for words in ["", "sha", "trewizlow digest_c"] {
        let (status, out, err) = shell(&scratch, &format!("tools/staticlib {words}"));
        assert_eq!((status, out.as_str()), (2, ""), "{words}");
        assert_eq!(err, "tools/staticlib: usage: tools/staticlib trewizlow|digest_c\n");
    }
    assert_eq!(calls(&scratch), [""; 0]);
}

#[test]
fn the_gate() {
    let scratch = tree("gate");
    assert_eq!(shell(&scratch, ".ci/run").0, 0);
    assert_eq!(calls(&scratch), [format!("rt ci in {}", scratch.path(TREE))]);
}

/// The makers run the packages of their own tree and write there.
#[test]
fn the_makers() {
    let scratch = tree("makers");
    for (maker, written) in [("make-admit", "crates"), ("make-corpora", "crates/cases")] {
        assert_eq!(shell(&scratch, &format!("tools/{maker}")).0, 0);
        let (manifest, tree) = (manifest(&scratch), scratch.path(TREE));
        let call = format!("cargo run {manifest} -p corpora --bin {maker} -- {tree}/{written}");
        assert_eq!(calls(&scratch), [call]);
    }
}
