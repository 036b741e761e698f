//! A script for the engine, in plain Rust over the standard maps: what a line costs there, to compare
//! `resolver-replay` with. It prints what `resolver-replay` does.
//!
//!     rustc --edition 2024 -O tools/plain/peer_script.rs -o peer_script
//!     ./peer_script < SCRIPT
#![allow(dead_code)]

mod peers;

use peers::script::{Fault, Session, is_skipped, open};
use std::io::{self, BufRead, BufWriter, Write};
use std::process::ExitCode;

fn main() -> io::Result<ExitCode> {
    let mut out = BufWriter::new(io::stdout().lock());
    let unreadable = run(&mut io::stdin().lock(), &mut out)?;
    if let Some(number) = unreadable {
        writeln!(out, "line {number} unreadable")?;
    }
    out.flush()?;
    Ok(ExitCode::from(if unreadable.is_some() { 2 } else { 0 }))
}

/// Does what the lines say, up to the first that can't be read, whose number it answers.
fn run<R: BufRead, W: Write>(input: &mut R, out: &mut W) -> io::Result<Option<u64>> {
    let (mut line, mut session) = (Vec::new(), None);
    for number in 1.. {
        line.clear();
        if input.read_until(b'\n', &mut line)? == 0 {
            break;
        }
        match take(&mut session, line.strip_suffix(b"\n").unwrap_or(&line), out) {
            Ok(()) => {}
            Err(Fault::Unreadable) => return Ok(Some(number)),
            Err(Fault::Output(error)) => return Err(error),
        }
    }
    Ok(None)
}

fn take<W: Write>(session: &mut Option<Session>, line: &[u8], out: &mut W) -> Result<(), Fault> {
    if is_skipped(line) {
        return Ok(());
    }
    match session {
        Some(session) => session.take(line, out),
        None => {
            *session = Some(open(line).ok_or(Fault::Unreadable)?);
            Ok(())
        }
    }
}
