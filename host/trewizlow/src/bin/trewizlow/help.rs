//! The help texts, and the commands that print them and the version.

use std::ffi::OsStr;

use crate::arguments::{Arguments, NO_NAMES};
use crate::command::{self, Command};
use crate::outcome::Outcome;

pub const GENERAL: &str = "\
usage: trewizlow COMMAND [OPTIONS]

May this signed Mach-O image run? The answers are those of a proved library.

commands:
  check      check an image against its signature and a trust cache
  recheck    check the pages that a change met, going on from a check's marks
  show       print a signature's blobs, directory, slots and cdhash
  explain    print the rule behind a refusal number
  help       print the help of a command; so does --help after it

  --version  print the version

exit status: 0 accepted, 1 refused, 2 usage or input error. Help and version that are
asked for exit with 0 as well.
";

pub const CHECK: &str = "\
usage: trewizlow check --signature FILE --image FILE --cache FILE [OPTIONS]

The whole check. Prints one line: the refusal number (0 is accepted), the place, and in
words what failed where. Notes on a refusal, such as which flags are not allowed, go to
standard error, and so does a warning where the hashes are SHA-1. All files are opened
before any is read, the image last.

  --signature FILE          the embedded signature (a SuperBlob), cut out of its Mach-O
                            file; README.md has the recipe
  --image FILE              the image; bytes past the signature's code limit are not
                            read. A regular file is mapped: no byte of it is read where
                            a test before 31 refuses. Anything else, such as a pipe, is
                            read up to the code limit before the check
  --cache FILE              the trust cache
  --info-plist FILE         the Info.plist, where there is one
  --code-resources FILE     the CodeResources, where they are there
  --launch-type N           launch fact, 0 to 255 (default 0)
  --validation-category N   launch fact, 0 to 255 (default 0)
  --on-system-volume        launch fact
  --on-authorized-volume    launch fact
  --parent-is-init          launch fact
  --marks OUT               write the marks, a byte a page (0 agrees, 1 differs), where
                            the answer is 0 or 31; OUT is left alone otherwise
  --json                    print an object: number, place, accepted, message,
                            marks_written; a warning where there is one; error where
                            the status is 2

OUT is made, or replaced in one step, so that a crash leaves the old marks or the new
ones. A file that is replaced keeps its permissions; the check waits while a recheck goes
on from it. Behind a symbolic link the file is replaced and the link stays; under another
hard link the old marks stay. A device or a pipe, such as /dev/stdout, is written to.
Nothing is checked and the status is 2 where OUT is one of the files above (under any
name), a directory, a read-only file, a symbolic link that leads to no file, or lies where
no file can be made. Where OUT has become one of the files above when the marks are to be
written, it is left alone and the status is 2. The new file is made before the check as
.trewizlow-* beside OUT; a run that is killed outright leaves it, and no run reads it.

Numbers are decimal, or hexadecimal after 0x.

exit status: 0 accepted, 1 refused, 2 usage or input error
";

pub const RECHECK: &str = "\
usage: trewizlow recheck --signature FILE --start N --length N --pages FILE --marks FILE
                         [--json]

Checks the pages that the range of N bytes from N on meets. Prints one line: the refusal
number, the place, and in words what failed where; notes on a refusal go to standard
error, and so does a warning where the hashes are SHA-1. Number 0 says that no mark is 1:
every page agrees as last examined. The trust cache is not looked at. All files are opened
before any is read, the pages last.

  --signature FILE   the signature of the check that wrote the marks
  --start N          where the range starts in the image
  --length N         how many bytes it has
  --pages FILE       the new bytes of the pages met, from the start of the first to the
                     end of the last (the image's last page is short); empty for length
                     0. A regular file is mapped; anything else, such as a pipe, is read
                     up to the code limit and one byte before the recheck
  --marks FILE       the marks that the call before left. Brought up to date where the
                     answer is 0 or 31: a new file takes its place in one step, so that a
                     crash leaves the old marks or the new ones
  --json             print an object: number, place, pages_agree (null where the number
                     is neither 0 nor 31), message, marks_written; a warning where there
                     is one; error where the status is 2

Rechecks that go on from one marks file wait for each other. The file keeps its
permissions; behind a symbolic link the file is replaced and the link stays; under another
hard link the old marks stay. Nothing is checked and the status is 2 where the marks are
one of the files above (under any name), a read-only file, no regular file, or lie where
no file can be made. Where another file has taken their place when they are to be written,
it is left alone and the status is 2. The new file is made before the recheck as
.trewizlow-* beside the marks; killed outright a run leaves it, and no run reads it.

Numbers are decimal, or hexadecimal after 0x.

exit status: 0 no mark is 1, 1 refused, 2 usage or input error
";

pub const SHOW: &str = "\
usage: trewizlow show [--all-slots] [--json] SIGNATURE

Prints the signature's blobs, and the directory's fields, slots and cdhash, its hash type
by name, its flags by Apple's names, and which field the code limit is. A refusal is
printed in the place of what cannot be read; a hash type that is not known, a hash size
that is not the type's, flags that are not allowed, a codeLimit64 that is too large, and
a scatterOffset that is not 0 are named on standard error. There is a warning where the
hashes are SHA-1, which is weak against collisions. A Mach-O file is refused: its
signature has to be cut out first, for which README.md has the recipe.

  --all-slots   print every code slot, not the first 16 alone
  --json        print an object: number, place, well_formed, message, blobs, hash_type
                and hash_size, flags_not_allowed, code_limit64 and scatter_offset where
                they are refused, a warning where there is one, and the directory with
                every code slot; error where the status is 2

exit status: 0 well formed, 1 refused, 2 usage or input error
";

pub const EXPLAIN: &str = "\
usage: trewizlow explain [--json] [N]

Prints the rule behind refusal number N: when it is given, what its place means, which
calls answer it. Without N, one line for every number.

  --json   print an object, or an array of all: number, given, place, calls; error where
           the status is 2

exit status: 0, or 2 usage error
";

pub const COMMAND: Command =
    Command { called: &["help", "--help", "-h"], names: NO_NAMES, help: GENERAL, run };

pub const VERSION: Command =
    Command { called: &["--version", "-V"], names: NO_NAMES, help: GENERAL, run: version };

fn run(arguments: &Arguments) -> Result<Outcome, String> {
    let name = match arguments.words.as_slice() {
        [] => OsStr::new("help"),
        [name] => name,
        _ => return Err("help wants one command; see --help".to_string()),
    };
    Ok(Outcome::text(command::find(name)?.help.to_string()))
}

fn version(arguments: &Arguments) -> Result<Outcome, String> {
    arguments.no_words()?;
    Ok(Outcome::text(format!("trewizlow {}\n", env!("CARGO_PKG_VERSION"))))
}
