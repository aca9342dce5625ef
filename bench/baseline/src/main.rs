//! A plain program for the common part of `xfrm one`: Rust's std alone, hash maps, a sorted list, nothing proved. It is what
//! `xfrm` is measured beside.

mod calls;
mod database;
mod grammar;
mod lines;
mod network;
mod phases;
mod policies;
mod states;
mod texts;
mod window;
mod words;

use lines::{Fault, Lines};
use std::env;
use std::io::{self, BufReader, BufWriter, Write};
use std::process::ExitCode;

const BUFFER: usize = 1 << 16;

fn main() -> ExitCode {
    if !env::args().skip(1).eq(["one"]) {
        eprintln!("usage: baseline one < batch");
        return ExitCode::from(2);
    }
    let mut lines = Lines::new(BufReader::with_capacity(BUFFER, io::stdin().lock()));
    let mut out = BufWriter::with_capacity(BUFFER, io::stdout().lock());
    ExitCode::from(match phases::run(&mut lines, &mut out) {
        Ok(refused) => u8::from(refused),
        Err(Fault::Line(number, reason)) => bad_line(&mut out, number, reason),
        Err(Fault::Reading) => 4,
        Err(Fault::Writing) => 5,
    })
}

fn bad_line(out: &mut impl Write, number: u64, reason: &str) -> u8 {
    match writeln!(out, "bad line {number}: {reason}").and_then(|()| out.flush()) {
        Ok(()) => 3,
        Err(_) => 5,
    }
}
