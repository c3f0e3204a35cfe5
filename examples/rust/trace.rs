//! The trace program on the library: an image and stall words of 8 bytes on standard input, their trace on standard
//! output, or the line `refused` and a number.
//!
//!     (cd crates/capi_c && rt lib); mkdir -p out; cp crates/capi_c/out/libcapi_c.a out/libcapi.a
//!     rustc --edition 2021 -C opt-level=3 -L out -o out/trace examples/rust/trace.rs
//!     out/trace < examples/figure4.input
mod channel_bench;

use channel_bench::{Refused, State, CLOSING_LINE_BYTES, CYCLE_LINE_BYTES, HEADER_LINE_BYTES};
use std::io::{self, Read, Write};

/// The most words that a trace may have.
const MOST_WORDS: usize = 4_096;

fn main() -> io::Result<()> {
    let mut input = Vec::new();
    io::stdin().read_to_end(&mut input)?;
    let mut out = io::BufWriter::new(io::stdout().lock());
    match accepted(&input) {
        Ok((image, state, words)) => print_trace(&mut out, image, state, &words)?,
        Err(Refused(number)) => writeln!(out, "refused {number}")?,
    }
    out.flush()
}

/// The image, its fresh state and the words, if none of them is refused.
fn accepted(input: &[u8]) -> Result<(&[u8], State, Vec<u64>), Refused> {
    let (image, tail) = input.split_at(image_length(input).min(input.len()));
    match channel_bench::judge(image) {
        Err(refused @ (Refused::SHORT | Refused::SIZES)) => return Err(refused),
        _ if tail.len() % 8 != 0 => return Err(Refused::LENGTH),
        judged => judged?,
    }
    if tail.len() / 8 > MOST_WORDS {
        return Err(Refused::LIMIT);
    }
    let words: Vec<u64> = tail.chunks_exact(8).map(|w| u64::from_le_bytes(w.try_into().unwrap())).collect();
    let state = channel_bench::fresh(image)?;
    // A run on a copy finds the first word that sets a bit at or above N.
    match channel_bench::run(image, &mut state.clone(), &words) {
        (_, Some(refused)) => Err(refused),
        (_, None) => Ok((image, state, words)),
    }
}

/// The length that the sizes at the start of the input ask for.
fn image_length(input: &[u8]) -> usize {
    match input {
        [nodes, channels, ..] => 2 + 5 * (*nodes as usize + *channels as usize),
        _ => 2,
    }
}

fn print_trace(out: &mut impl Write, image: &[u8], mut state: State, words: &[u64]) -> io::Result<()> {
    out.write_all(channel_bench::header_line(&mut [0; HEADER_LINE_BYTES]).map_err(io::Error::other)?)?;
    let mut room = [0; CYCLE_LINE_BYTES];
    for &word in words {
        out.write_all(channel_bench::cycle_line(image, &mut state, word, &mut room).map_err(io::Error::other)?)?;
    }
    let mut room = [0; CLOSING_LINE_BYTES];
    out.write_all(channel_bench::closing_line(image, &state, &mut room).map_err(io::Error::other)?)
}
