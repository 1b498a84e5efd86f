//! bench-digest: the proved hashes and straightforward ones, over the pages of one buffer, in
//! one run. Every digest of every pass is compared.

mod proved;

use std::process::ExitCode;

use bench::arguments::{is_help, unknown, Arguments};
use bench::buffer::filled;
use bench::plain::{Kind, MOST};
use bench::timing::{seconds, Times};

const HELP: &str = "\
usage: bench-digest [--mib N] [--reps N]
Hashes N MiB (default 200) in pages of 4,096 and of 16,384 bytes by each hash kind (SHA-1,
SHA-256, SHA-256 cut to 20 bytes, SHA-384) with the proved hash and with a straightforward
Rust one, N times each (default 5), compares every digest and prints both times and their
ratio. Exit status 1 where two digests differ.
";

type Out = [u8; MOST];

type Digest = fn(Kind, &[u8], &mut Out);

fn proved_digest(kind: Kind, message: &[u8], out: &mut Out) {
    proved::digest(kind as u32, message, out);
}

fn plain_digest(kind: Kind, message: &[u8], out: &mut Out) {
    kind.digest(message, out);
}

/// A piece that is timed at once.
const PIECE: usize = 1 << 20;

/// Pages of one size that are hashed by one kind.
#[derive(Clone, Copy)]
struct Pages {
    kind: Kind,
    size: usize,
}

impl Pages {
    /// One timed pass over a piece, page after page; the outputs are cleared to 0 before.
    fn pass(self, digest: Digest, piece: &[u8], out: &mut [Out]) -> f64 {
        out.fill([0; MOST]);
        let pages = piece.chunks(self.size).zip(out);
        seconds(|| pages.for_each(|(page, out)| digest(self.kind, page, out)))
    }

    /// The first page whose digests differ.
    fn differing(self, [proved, plain]: &[Vec<Out>; 2]) -> Option<usize> {
        let width = self.kind.width();
        proved.iter().zip(plain).position(|(one, other)| one[..width] != other[..width])
    }

    /// The times of both programs (proved, plain), or the first page whose digests differ.
    fn measure(self, buffer: &[u8], reps: usize) -> Result<[Times; 2], usize> {
        let digests: [Digest; 2] = [proved_digest, plain_digest];
        let per_piece = PIECE / self.size;
        let mut outs = [(); 2].map(|()| vec![[0; MOST]; per_piece]);
        let mut times = [(); 2].map(|()| Times::new(buffer.len() / PIECE));
        for rep in 0..reps {
            for (k, piece) in buffer.chunks(PIECE).enumerate() {
                for turn in 0..2 {
                    // Each goes first in every other turn.
                    let program = (turn + rep + k) % 2;
                    let taken = self.pass(digests[program], piece, &mut outs[program]);
                    times[program].add(k, taken);
                }
                if let Some(page) = self.differing(&outs) {
                    return Err(k * per_piece + page);
                }
            }
        }
        Ok(times)
    }

    fn report(self, bytes: usize, reps: usize, [proved, plain]: &[Times; 2]) {
        let speed = |seconds: f64| bytes as f64 / seconds / 1e6;
        println!("pages of {} bytes", self.size);
        for (name, times) in [("proved", proved), ("plain", plain)] {
            let (least, median) = (times.minima(), times.medians());
            println!(
                "  {name:6}  minima {least:8.4} s {:6.1} MB/s   medians {median:8.4} s {:6.1} MB/s",
                speed(least),
                speed(median)
            );
        }
        println!(
            "  ratio proved/plain  minima {:.3}   medians {:.3}",
            proved.minima() / plain.minima(),
            proved.medians() / plain.medians()
        );
        println!("  all {} digests agree in each of {reps} repetitions", bytes / self.size);
    }
}

/// Both page sizes by one kind.
fn run_kind(kind: Kind, buffer: &[u8], arguments: &Arguments) -> Result<(), String> {
    let (name, reps) = (kind.name(), arguments.reps);
    println!("\n{name} of {} MiB, {reps} repetitions", arguments.mib);
    for size in [4096, 16384] {
        let pages = Pages { kind, size };
        let times = pages
            .measure(buffer, reps)
            .map_err(|page| format!("the {name} digests of page {page} of {size} bytes differ"))?;
        pages.report(buffer.len(), reps, &times);
    }
    Ok(())
}

fn run(arguments: &Arguments) -> Result<(), String> {
    let buffer = filled(arguments.mib * PIECE);
    println!("buffer: not cleared; filled with pseudo-random bytes before the first pass");
    println!("outputs: cleared to 0 before each pass over a piece, outside the timed part");
    println!("time: of this thread, in pieces of 1 MiB, the two programs taking turns; the sum");
    println!("over the pieces of each piece's minimum, and of its median");
    Kind::ALL.into_iter().try_for_each(|kind| run_kind(kind, &buffer, arguments))
}

/// The arguments; none where help is asked for.
fn read(mut list: impl Iterator<Item = String>) -> Result<Option<Arguments>, String> {
    let mut arguments = Arguments { mib: 200, reps: 5 };
    while let Some(name) = list.next() {
        if is_help(&name) {
            return Ok(None);
        }
        if !arguments.take(&name, &mut list)? {
            return unknown(&name);
        }
    }
    Ok(Some(arguments))
}

fn main() -> ExitCode {
    let arguments = match read(std::env::args().skip(1)) {
        Ok(Some(arguments)) => arguments,
        Ok(None) => {
            print!("{HELP}");
            return ExitCode::SUCCESS;
        }
        Err(message) => {
            eprint!("bench-digest: {message}\n{HELP}");
            return ExitCode::from(2);
        }
    };
    match run(&arguments) {
        Ok(()) => ExitCode::SUCCESS,
        Err(message) => {
            eprintln!("bench-digest: {message}");
            ExitCode::FAILURE
        }
    }
}
