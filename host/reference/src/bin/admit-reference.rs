//! Document 01's small program by the reference: SIGNATURE IMAGE CACHE. Exit status 0
//! whatever line is printed, 2 for a usage error.

use std::path::Path;
use std::process::ExitCode;

fn main() -> ExitCode {
    let arguments: Vec<String> = std::env::args().skip(1).collect();
    let [signature, image, cache] = arguments.as_slice() else {
        eprintln!("usage: admit-reference SIGNATURE IMAGE CACHE");
        return ExitCode::from(2);
    };
    print!("{}", reference::small::run(Path::new(signature), Path::new(image), Path::new(cache)));
    ExitCode::SUCCESS
}
