//! Runs a program on files and holds what it prints against what is expected here.

use std::io::{self, Read, Write};
use std::path::Path;
use std::process::{Command, Stdio};
use std::sync::atomic::{AtomicUsize, Ordering};
use std::sync::{mpsc, Mutex};
use std::thread;
use std::time::{Duration, Instant};

/// A program that runs longer than this is stopped.
const PATIENCE: Duration = Duration::from_secs(10);
/// More output than this is not read.
const MOST_OUTPUT: u64 = 1 << 20;
/// The most runs, and the most time, spent on making a differing file smaller.
const MOST_TRIALS: usize = 4_000;
const MOST_TIME: Duration = Duration::from_secs(60);
/// What is shown of a long file.
const SHOWN_LINES: usize = 100;
const SHOWN_BYTES: usize = 200;

/// What one run of a program gave.
#[derive(Clone, Debug, PartialEq, Eq)]
pub struct Outcome {
    pub output: Vec<u8>,
    pub errors: Vec<u8>,
    /// The status, or none where the program was stopped.
    pub status: Option<i32>,
}

/// What a right program prints for the bytes of a file.
pub type Printed = fn(&[u8]) -> String;
/// A way to part the bytes of a file, so that parts can be dropped.
pub type Parting = fn(&[u8]) -> Vec<&[u8]>;

impl Outcome {
    /// What a right program gives: it prints this, and nothing else.
    pub fn expected(output: String) -> Self {
        Outcome { output: output.into_bytes(), errors: Vec::new(), status: Some(0) }
    }
}

/// Runs the program with these bytes on standard input.
pub fn run(program: &Path, bytes: &[u8]) -> io::Result<Outcome> {
    let mut child =
        Command::new(program).stdin(Stdio::piped()).stdout(Stdio::piped()).stderr(Stdio::piped()).spawn()?;
    let (stdin, stdout, stderr) = (child.stdin.take(), child.stdout.take(), child.stderr.take());
    let (done, finished) = mpsc::channel();
    thread::scope(|scope| {
        // A program may end without reading all of its input.
        scope.spawn(move || stdin.map(|mut pipe| pipe.write_all(bytes)));
        let errors = scope.spawn(move || all_of(stderr));
        let output = scope.spawn(move || {
            let output = all_of(stdout);
            let _ = done.send(());
            output
        });
        let in_time = finished.recv_timeout(PATIENCE).is_ok();
        if !in_time {
            child.kill()?;
        }
        let status = child.wait()?.code().filter(|_| in_time);
        let joined = |bytes: thread::Result<Vec<u8>>| bytes.unwrap_or_default();
        Ok(Outcome { output: joined(output.join()), errors: joined(errors.join()), status })
    })
}

fn all_of(pipe: Option<impl Read>) -> Vec<u8> {
    let mut bytes = Vec::new();
    if let Some(pipe) = pipe {
        let _ = pipe.take(MOST_OUTPUT).read_to_end(&mut bytes);
    }
    bytes
}

/// The first file, by its number, for which the program differs; none where all agree.
pub fn first_difference(
    program: &Path,
    printed: Printed,
    file: impl Fn(usize) -> Vec<u8> + Sync,
    count: usize,
) -> io::Result<Option<usize>> {
    let next = AtomicUsize::new(0);
    let first = AtomicUsize::new(count);
    let failure = Mutex::new(None);
    let work = || loop {
        let n = next.fetch_add(1, Ordering::Relaxed);
        if n >= first.load(Ordering::Relaxed) {
            return;
        }
        let bytes = file(n);
        match run(program, &bytes) {
            Ok(outcome) if outcome == Outcome::expected(printed(&bytes)) => {}
            Ok(_) => drop(first.fetch_min(n, Ordering::Relaxed)),
            Err(error) => {
                first.store(0, Ordering::Relaxed);
                *failure.lock().unwrap() = Some(error);
            }
        }
    };
    thread::scope(|scope| {
        let workers = thread::available_parallelism().map_or(1, |cores| cores.get());
        for _ in 0..workers {
            scope.spawn(work);
        }
    });
    if let Some(error) = failure.into_inner().unwrap() {
        return Err(error);
    }
    Ok(Some(first.into_inner()).filter(|n| *n < count))
}

/// A smaller file for which the program still differs: parts are dropped, in each way to part, while that holds.
pub fn shrunk(program: &Path, printed: Printed, partings: &[Parting], bytes: Vec<u8>) -> io::Result<Vec<u8>> {
    let start = Instant::now();
    let mut differs = |bytes: &[u8]| {
        Ok(start.elapsed() < MOST_TIME && run(program, bytes)? != Outcome::expected(printed(bytes)))
    };
    shrink(bytes, partings, &mut differs, MOST_TRIALS)
}

pub fn by_lines(bytes: &[u8]) -> Vec<&[u8]> {
    bytes.split_inclusive(|byte| *byte == 10).collect()
}

pub fn by_bytes(bytes: &[u8]) -> Vec<&[u8]> {
    bytes.chunks(1).collect()
}

fn shrink(
    bytes: Vec<u8>,
    partings: &[Parting],
    differs: &mut dyn FnMut(&[u8]) -> io::Result<bool>,
    mut trials: usize,
) -> io::Result<Vec<u8>> {
    let mut smallest = bytes;
    loop {
        let before = smallest.len();
        for parting in partings {
            smallest = fewer(parting(&smallest), differs, &mut trials)?.concat();
        }
        if smallest.len() == before || trials == 0 {
            return Ok(smallest);
        }
    }
}

/// Drops runs of parts, long runs first, while what is left still differs.
fn fewer<'b>(
    mut parts: Vec<&'b [u8]>,
    differs: &mut dyn FnMut(&[u8]) -> io::Result<bool>,
    trials: &mut usize,
) -> io::Result<Vec<&'b [u8]>> {
    let mut run = parts.len().div_ceil(2);
    while run > 0 {
        let mut at = 0;
        while at < parts.len() && *trials > 0 {
            *trials -= 1;
            let mut rest = parts.clone();
            rest.drain(at..(at + run).min(parts.len()));
            match differs(&rest.concat())? {
                true => parts = rest,
                false => at += run,
            }
        }
        run /= 2;
    }
    Ok(parts)
}

/// Bytes so that each can be seen, a line for each line; the beginning only where there are many.
pub fn shown(bytes: &[u8]) -> String {
    if bytes.is_empty() {
        return "  (nothing)\n".into();
    }
    let lines: Vec<&[u8]> = bytes.split_inclusive(|byte| *byte == 10).collect();
    let mut text = String::new();
    for line in lines.iter().take(SHOWN_LINES) {
        let (start, rest) = line.split_at(line.len().min(SHOWN_BYTES));
        text += &format!("  {}", start.escape_ascii());
        if !rest.is_empty() {
            text += &format!(" .. ({} bytes more)", rest.len());
        }
        text.push('\n');
    }
    if lines.len() > SHOWN_LINES {
        text += &format!("  .. ({} lines more)\n", lines.len() - SHOWN_LINES);
    }
    text
}

#[cfg(test)]
mod tests {
    use super::*;

    #[test]
    fn a_file_is_shrunk_to_what_matters() {
        let bytes = b"form=1\nmember=7\nsegment=3\nday=120\nend=77\n".to_vec();
        let mut seen = |bytes: &[u8]| Ok(bytes.windows(3).any(|three| three == b"=77"));
        assert_eq!(shrink(bytes, &[by_lines, by_bytes], &mut seen, 1_000).unwrap(), b"=77");
    }

    #[test]
    fn no_more_trials_than_allowed() {
        let mut count = 0;
        let mut never = |_: &[u8]| {
            count += 1;
            Ok(false)
        };
        assert_eq!(shrink(vec![b'x'; 500], &[by_lines, by_bytes], &mut never, 20).unwrap().len(), 500);
        assert_eq!(count, 20);
    }

    #[test]
    fn bytes_are_shown() {
        assert_eq!(shown(b"a=1\r\nb"), "  a=1\\r\\n\n  b\n");
        assert!(shown(&[b'x'; 201]).ends_with("x .. (1 bytes more)\n"));
        assert!(shown(&[10; 103]).ends_with("  .. (3 lines more)\n"));
    }
}
