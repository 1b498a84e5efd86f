//! One line on standard error that says what takes so long.

use std::io::{stderr, IsTerminal, Write};
use std::sync::atomic::{AtomicBool, Ordering};
use std::sync::mpsc::{channel, Receiver, RecvTimeoutError};
use std::thread::{self, Builder};
use std::time::{Duration, Instant};

/// Goes back to the start of the line and clears it.
pub const CLEAR: &str = "\r\x1b[K";

const SECOND: Duration = Duration::from_secs(1);
/// So many characters of a long name are shown, so that the line stays one line.
const WIDTH: usize = 60;

static SHOWN: AtomicBool = AtomicBool::new(false);

/// True while a line stands on the terminal.
pub fn is_shown() -> bool {
    SHOWN.load(Ordering::Relaxed)
}

/// Does the work. Where standard error is a terminal and the work takes over a second, a line
/// says what goes on, and is gone at the end.
pub fn during<T>(what: &str, work: impl FnOnce() -> T) -> T {
    if !stderr().is_terminal() {
        return work();
    }
    beside(|ended| tell(&mut stderr(), what, SECOND, ended), work)
}

/// As `during`, for work that another process can hold up for ever: where standard error is no
/// terminal, a line says so once, and stays.
pub fn waiting<T>(what: &str, work: impl FnOnce() -> T) -> T {
    if stderr().is_terminal() {
        return during(what, work);
    }
    beside(|ended| tell_once(&mut stderr(), what, SECOND, ended), work)
}

/// Does the work, and meanwhile in a thread what is said of it, which ends with the channel.
fn beside<T>(said: impl FnOnce(Receiver<()>) + Send, work: impl FnOnce() -> T) -> T {
    let (running, ended) = channel();
    thread::scope(|scope| {
        // Without a thread the work is done all the same.
        let _ = Builder::new().spawn_scoped(scope, || said(ended));
        let done = work();
        drop(running);
        done
    })
}

/// One line after the interval, unless the other end of the channel is dropped before.
fn tell_once(out: &mut impl Write, what: &str, interval: Duration, ended: Receiver<()>) {
    if ended.recv_timeout(interval) == Err(RecvTimeoutError::Timeout) {
        let _ = out.write_all(format!("trewizlow: {what}\n").as_bytes());
    }
}

/// Rewrites the line at each interval until the other end of the channel is dropped.
fn tell(out: &mut impl Write, what: &str, interval: Duration, ended: Receiver<()>) {
    let start = Instant::now();
    let mut shown = false;
    while ended.recv_timeout(interval) == Err(RecvTimeoutError::Timeout) {
        shown = true;
        SHOWN.store(true, Ordering::Relaxed);
        let line = format!("{CLEAR}trewizlow: {what:.WIDTH$}, {} s", start.elapsed().as_secs());
        // A terminal that went away is no reason to stop the work.
        let _ = out.write_all(line.as_bytes()).and_then(|()| out.flush());
    }
    if shown {
        SHOWN.store(false, Ordering::Relaxed);
        let _ = out.write_all(CLEAR.as_bytes());
    }
}

#[cfg(test)]
mod tests {
    use std::io;
    use std::sync::mpsc::Sender;

    use super::*;

    const SHORT: Duration = Duration::from_millis(1);

    /// Keeps what is written. The work ends with the second line.
    struct Terminal {
        lines: Vec<String>,
        running: Option<Sender<()>>,
    }

    impl Write for Terminal {
        fn write(&mut self, bytes: &[u8]) -> io::Result<usize> {
            self.lines.push(String::from_utf8_lossy(bytes).into_owned());
            self.running = self.running.take().filter(|_| self.lines.len() < 2);
            Ok(bytes.len())
        }

        fn flush(&mut self) -> io::Result<()> {
            Ok(())
        }
    }

    #[test]
    fn lines_while_the_work_goes_on() {
        let (running, ended) = channel();
        let mut out = Terminal { lines: Vec::new(), running: Some(running) };
        tell(&mut out, "checking 3 MiB", SHORT, ended);
        let line = format!("{CLEAR}trewizlow: checking 3 MiB, 0 s");
        assert_eq!(out.lines, [line.as_str(), line.as_str(), CLEAR]);
        assert!(!is_shown());
    }

    #[test]
    fn nothing_where_the_work_is_short() {
        let (running, ended) = channel();
        drop(running);
        let mut out = Terminal { lines: Vec::new(), running: None };
        tell(&mut out, "checking", SECOND, ended);
        assert_eq!(out.lines, [""; 0]);
    }
}
