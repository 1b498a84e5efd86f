//! The search for hash instructions finds the one that is in this executable, and none in
//! bench-check's.
#![cfg(target_arch = "x86_64")]

mod ran;

use std::path::Path;

use bench::check::instructions::{search, Search};
use bench::check::Programs;

// Only a called function is sure to be linked.
core::arch::global_asm!(
    ".globl bench_has_a_hash_instruction",
    "bench_has_a_hash_instruction:",
    "ret",
    "sha256rnds2 xmm1, xmm2, xmm0",
);

extern "C" {
    fn bench_has_a_hash_instruction();
}

/// The hash instructions of an executable; none, with a message, where there is no objdump.
fn hash_instructions(executable: &Path) -> Option<Vec<String>> {
    match search(executable) {
        Search::Done(found) => Some(found.hash),
        Search::NotLooked(why) => {
            assert_eq!(why, "no objdump");
            println!("skipped: {why}");
            None
        }
    }
}

/// This executable, with the instruction in it.
fn this() -> std::path::PathBuf {
    // SAFETY: it returns at once, before the hash instruction.
    unsafe { bench_has_a_hash_instruction() };
    std::env::current_exe().unwrap()
}

#[test]
fn one_is_found() {
    if let Some(found) = hash_instructions(&this()) {
        assert_eq!(found.len(), 1, "{found:?}");
        assert!(found[0].starts_with("sha256rnds2"), "{found:?}");
    }
}

#[test]
fn bench_check_has_none() {
    if let Some(found) = hash_instructions(Path::new(env!("CARGO_BIN_EXE_bench-check"))) {
        assert_eq!(found, Vec::<String>::new());
    }
}

/// A run in this executable ends before anything is measured.
#[test]
fn a_run_ends_with_status_1() {
    if hash_instructions(&this()).is_some() {
        let (status, tables, progress) = ran::in_process(&Programs::COMPARED, &["--mib", "1"]);
        assert_eq!((status, tables.as_str()), (1, ""));
        assert!(progress.contains("hash instructions: 1, the first sha256rnds2"), "{progress}");
    }
}
