//! Times on a shared machine: the thread's own processor time, in pieces.

#[repr(C)]
struct Timespec {
    seconds: i64,
    nanoseconds: i64,
}

extern "C" {
    fn clock_gettime(clock: i32, time: *mut Timespec) -> i32;
}

/// Linux's number for the processor time of the calling thread.
const CLOCK_THREAD_CPUTIME_ID: i32 = 3;

fn now() -> f64 {
    let mut time = Timespec { seconds: 0, nanoseconds: 0 };
    // SAFETY: `time` is valid for writing and laid out as the C library's timespec.
    let failed = unsafe { clock_gettime(CLOCK_THREAD_CPUTIME_ID, &mut time) };
    assert_eq!(failed, 0, "no thread clock");
    time.seconds as f64 + time.nanoseconds as f64 * 1e-9
}

/// Seconds of processor time that `work` takes.
pub fn seconds(work: impl FnOnce()) -> f64 {
    let start = now();
    work();
    now() - start
}

/// The times of one program: for each piece, one of each repetition.
pub struct Times(Vec<Vec<f64>>);

impl Times {
    pub fn new(pieces: usize) -> Times {
        Times(vec![Vec::new(); pieces])
    }

    pub fn add(&mut self, piece: usize, seconds: f64) {
        self.0[piece].push(seconds);
    }

    /// The sum over the pieces of what `choose` takes from a piece's sorted times.
    fn sum(&self, choose: impl Fn(&[f64]) -> f64) -> f64 {
        let chosen = self.0.iter().map(|times| {
            let mut sorted = times.clone();
            sorted.sort_by(f64::total_cmp);
            choose(&sorted)
        });
        chosen.sum()
    }

    pub fn minima(&self) -> f64 {
        self.sum(|sorted| sorted[0])
    }

    pub fn medians(&self) -> f64 {
        self.sum(|sorted| sorted[sorted.len() / 2])
    }
}
