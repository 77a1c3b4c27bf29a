//! The other program: as processes fed on standard input, or this library with one rule broken.

use std::io::{Read, Write};
use std::path::{Path, PathBuf};
use std::process::{Child, Command, Stdio};
use std::sync::mpsc;
use std::thread;
use std::time::Duration;

use second::slips::{with_slip, Slip};

/// A program that takes longer than this for one input is ended.
const LONGEST_ANSWER: Duration = Duration::from_secs(120);

/// What a program printed, or why it printed nothing that counts.
pub type Answer = Result<Vec<u8>, String>;

/// Whatever is compared with this library.
pub trait Other {
    fn bench(&mut self, input: &[u8]) -> Answer;
    fn vectors(&mut self, file: &[u8]) -> Answer;
    fn has_bench(&self) -> bool;
    fn has_vectors(&self) -> bool;
}

/// The programs named on the command line.
#[derive(Default)]
pub struct OtherPrograms {
    pub bench: Option<PathBuf>,
    pub vectors: Option<PathBuf>,
}

impl Other for OtherPrograms {
    fn bench(&mut self, input: &[u8]) -> Answer {
        answer_of(self.bench.as_deref().expect("asked only if named"), input)
    }

    fn vectors(&mut self, file: &[u8]) -> Answer {
        answer_of(self.vectors.as_deref().expect("asked only if named"), file)
    }

    fn has_bench(&self) -> bool {
        self.bench.is_some()
    }

    fn has_vectors(&self) -> bool {
        self.vectors.is_some()
    }
}

/// Runs the program once. Document 01 says nothing of exit statuses, so only an end by a signal
/// counts against it.
fn answer_of(program: &Path, input: &[u8]) -> Answer {
    let mut child = Command::new(program)
        .stdin(Stdio::piped())
        .stdout(Stdio::piped())
        .stderr(Stdio::null())
        .spawn()
        .map_err(|error| format!("{} cannot be started: {error}", program.display()))?;
    feed(&mut child, input.to_vec());
    let printed = collect(&mut child);
    if printed.is_none() {
        // It is our own child that is ended here.
        let _ = child.kill();
    }
    let status = child.wait().map_err(|error| error.to_string())?;
    let printed = printed.ok_or_else(|| format!("no end after {LONGEST_ANSWER:?}"))?;
    if status.code().is_none() {
        return Err(format!("ended by a signal: {status}"));
    }
    Ok(printed)
}

/// Writes the input beside the reading, so that neither waits for the other. A program may stop
/// reading early, so a failed write is no fault.
fn feed(child: &mut Child, input: Vec<u8>) {
    let mut pipe = child.stdin.take().expect("standard input is piped");
    thread::spawn(move || pipe.write_all(&input));
}

fn collect(child: &mut Child) -> Option<Vec<u8>> {
    let mut pipe = child.stdout.take().expect("standard output is piped");
    let (sender, receiver) = mpsc::channel();
    thread::spawn(move || {
        let mut printed = Vec::new();
        let _ = pipe.read_to_end(&mut printed);
        let _ = sender.send(printed);
    });
    receiver.recv_timeout(LONGEST_ANSWER).ok()
}

/// This library with one rule broken on purpose.
pub struct SlippedLibrary(pub Slip);

impl Other for SlippedLibrary {
    fn bench(&mut self, input: &[u8]) -> Answer {
        Ok(with_slip(self.0, || bench_answer(input)))
    }

    fn vectors(&mut self, file: &[u8]) -> Answer {
        Ok(with_slip(self.0, || vectors_answer(file)))
    }

    fn has_bench(&self) -> bool {
        true
    }

    fn has_vectors(&self) -> bool {
        true
    }
}

/// What this library prints for a bench input.
pub fn bench_answer(input: &[u8]) -> Vec<u8> {
    second::bench::run(input).to_string().into_bytes()
}

/// What this library prints for a vector file.
pub fn vectors_answer(file: &[u8]) -> Vec<u8> {
    second::vectors::answer_file(file).into_bytes()
}
