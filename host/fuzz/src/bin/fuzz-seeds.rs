//! fuzz-seeds DIRECTORY: writes the inputs to start from, a file each.

use std::path::Path;
use std::process::ExitCode;

fn write(directory: &Path) -> std::io::Result<()> {
    std::fs::create_dir_all(directory)?;
    fuzz::seeds()
        .iter()
        .try_for_each(|seed| std::fs::write(directory.join(seed.file_name()), &seed.input))
}

fn main() -> ExitCode {
    let arguments: Vec<_> = std::env::args_os().skip(1).collect();
    let [directory] = &arguments[..] else {
        eprintln!("usage: fuzz-seeds DIRECTORY");
        return ExitCode::from(2);
    };
    match write(Path::new(directory)) {
        Ok(()) => ExitCode::SUCCESS,
        Err(error) => {
            eprintln!("fuzz-seeds: {}: {error}", directory.display());
            ExitCode::from(2)
        }
    }
}
