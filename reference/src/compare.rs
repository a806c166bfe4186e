//! Runs a detect program on seeded recordings and compares it with the reference.

use crate::{detect, figures::Figures, generate};
use std::{
    fs,
    io::{self, Write},
    path::Path,
    process::{Command, Stdio},
};

/// What a program printed, and its exit status where it has one.
struct Outcome {
    output: Vec<u8>,
    status: Option<i32>,
}

/// Compares on `count` recordings. At the first difference the recording, what was expected and what came are
/// left in `folder`, and the error says so.
pub fn run(program: &Path, seed: u64, count: u64, folder: &Path) -> io::Result<Figures> {
    let mut figures = Figures::default();
    for index in 0..count {
        let recording = generate::recording(seed, index);
        let answer = detect::detect(&recording);
        let expected = detect::text(&answer);
        let status = i32::from(detect::status(&answer));
        let outcome = run_once(program, &recording)?;
        if outcome.output != expected.as_bytes() || outcome.status != Some(status) {
            fs::create_dir_all(folder)?;
            fs::write(folder.join("difference.bin"), &recording)?;
            fs::write(folder.join("difference.expected"), &expected)?;
            fs::write(folder.join("difference.got"), &outcome.output)?;
            return Err(io::Error::other(format!(
                "seed {seed}, recording {index}: expected status {status}, got {:?}; \
                 the recording and both outputs are in {}",
                outcome.status,
                folder.display()
            )));
        }
        figures.add(&answer);
    }
    Ok(figures)
}

fn run_once(program: &Path, recording: &[u8]) -> io::Result<Outcome> {
    let mut child = Command::new(program)
        .stdin(Stdio::piped())
        .stdout(Stdio::piped())
        .stderr(Stdio::null())
        .spawn()?;
    if let Some(mut input) = child.stdin.take() {
        // A program need not read what is too long to the end.
        match input.write_all(recording) {
            Err(error) if error.kind() != io::ErrorKind::BrokenPipe => return Err(error),
            _ => {}
        }
    }
    let output = child.wait_with_output()?;
    Ok(Outcome {
        output: output.stdout,
        status: output.status.code(),
    })
}
