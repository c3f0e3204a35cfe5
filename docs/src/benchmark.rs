//! Times the library against ordinary Rust that does the same work and is not proved (judge.rs, engine.rs, strict.rs,
//! row.rs), and prints a table. benchmark.sh builds and runs it.
//!
//! Both sides are called in this process on the same inputs, by turns, for several rounds; a figure is the median of
//! the rounds. Before any timing both are compared: numbers, steps, every byte of the states, values, letters, answers.
mod engine;
mod judge;
mod row;
mod strict;

#[path = "../../examples/rust/channel_bench.rs"]
mod channel_bench;

use channel_bench::{raw, STATE_BYTES, STATION_BYTES};
use engine::Netlist;
use row::Station;
use std::hint::black_box;
use std::time::{Duration, Instant};

// The bytes that benchmark.sh puts before the library's code. They are kept because `main` names them.
std::arch::global_asm!(".text", ".globl before_the_library", "before_the_library:", concat!(".skip ", env!("PAD"), ", 0x90"), "ret");

extern "C" {
    fn before_the_library();
}

const ROUNDS: usize = 9;
const IMAGES: usize = 100_000;
const CYCLES: usize = 100_000;
const STEPS: usize = 20_000;
const LAST_CYCLE: u32 = 1_000_000;
const ROW_CALLS: u32 = 1_000_000;

/// A line of the table: what is timed, and each side's work. It clears its buffers first and answers how long the rest
/// took.
struct Line<'a> {
    what: &'a str,
    ours: Box<dyn FnMut() -> Duration + 'a>,
    rust: Box<dyn FnMut() -> Duration + 'a>,
}

fn main() {
    black_box(before_the_library as unsafe extern "C" fn());
    let mut arguments = std::env::args().skip(1);
    let mut image = || std::fs::read(arguments.next().expect("the path of an image")).expect("an image");
    let (netlist, strict_netlist) = (image(), image());
    let free = vec![0; CYCLES];
    let stalls = stall_words(netlist[0] as usize);

    compare_judges(&netlist);
    compare_runs(&netlist, &free);
    compare_runs(&netlist, &stalls);
    compare_steps(&netlist, &stalls[..STEPS]);
    compare_stricts(&strict_netlist);
    compare_rows();
    println!("Both sides answer the same. Medians of {ROUNDS} rounds by turns; in brackets the least and the most.\n");
    println!("| what | ours | ordinary Rust | ratio |\n|---|---|---|---|");
    let lines = [
        judge_line(&netlist),
        run_line("100,000 cycles in one run, no stalls", &netlist, &free),
        run_line("100,000 cycles in one run, each stall bit set in 1 word of 16", &netlist, &stalls),
        step_line(&netlist, &stalls[..STEPS]),
        cycle_line(&netlist, &stalls[..STEPS]),
        strict_line(&strict_netlist),
        row_line(),
        row_structs_line(),
    ];
    for line in lines {
        print_line(line);
    }
    println!("\nBefore each timed part, outside its time: states set to fresh ones, letters, values and rows cleared.");
}

fn print_line(mut line: Line) {
    let (mut ours, mut rust) = (Vec::new(), Vec::new());
    for round in 0..ROUNDS {
        if round % 2 == 0 {
            ours.push((line.ours)().as_secs_f64() * 1e3);
            rust.push((line.rust)().as_secs_f64() * 1e3);
        } else {
            rust.push((line.rust)().as_secs_f64() * 1e3);
            ours.push((line.ours)().as_secs_f64() * 1e3);
        }
    }
    let ratios: Vec<f64> = ours.iter().zip(&rust).map(|(ours, rust)| ours / rust).collect();
    let ratio = median(&ours) / median(&rust);
    let ratios = sorted(&ratios);
    println!(
        "| {} | {} | {} | {ratio:.2} [{:.2} to {:.2}] |",
        line.what,
        shown(&ours),
        shown(&rust),
        ratios[0],
        ratios[ROUNDS - 1]
    );
}

fn shown(times: &[f64]) -> String {
    let times = sorted(times);
    format!("{:.1} ms [{:.1} to {:.1}]", median(&times), times[0], times[times.len() - 1])
}

fn sorted(times: &[f64]) -> Vec<f64> {
    let mut times = times.to_vec();
    times.sort_by(f64::total_cmp);
    times
}

fn median(times: &[f64]) -> f64 {
    sorted(times)[times.len() / 2]
}

fn timed<T>(work: impl FnOnce() -> T) -> Duration {
    let start = Instant::now();
    black_box(work());
    start.elapsed()
}

/// Stall words from xorshift64 (shifts 13, 7, 17), from the seed 88172645463325252. Each word is four draws and-ed, so
/// that a bit is set with probability 1/16, without the bits at or above N.
fn stall_words(nodes: usize) -> Vec<u64> {
    let mut x: u64 = 88_172_645_463_325_252;
    let mut draw = || {
        x ^= x << 13;
        x ^= x >> 7;
        x ^= x << 17;
        x
    };
    (0..CYCLES).map(|_| (draw() & draw() & draw() & draw()) & (u64::MAX >> (64 - nodes))).collect()
}

fn fresh(image: &[u8]) -> Vec<u8> {
    let mut state = vec![0; STATE_BYTES];
    assert_eq!(raw::fresh(image, &mut state), 0, "the image is accepted");
    state
}

/// Judges an image many times, with another parameter byte each time so that no call can be saved.
fn judge_often(image: &mut [u8], judge: impl Fn(&[u8]) -> u8) -> u32 {
    let parameter = 2 + image[0] as usize;
    let mut refused = 0;
    for i in 0..IMAGES {
        image[parameter] = i as u8;
        refused += judge(black_box(image)) as u32;
    }
    refused
}

fn judge_line(image: &[u8]) -> Line<'_> {
    let (mut ours, mut rust) = (image.to_vec(), image.to_vec());
    Line {
        what: "100,000 images judged",
        ours: Box::new(move || timed(|| judge_often(&mut ours, raw::judge))),
        rust: Box::new(move || timed(|| judge_often(&mut rust, judge::judge))),
    }
}

/// On the image, and on the image with each of its bytes changed.
fn compare_judges(image: &[u8]) {
    for at in 0..image.len() {
        for add in [0, 1, 128, 255] {
            let mut changed = image.to_vec();
            changed[at] = changed[at].wrapping_add(add);
            assert_eq!(raw::judge(&changed), judge::judge(&changed), "byte {at} plus {add}");
        }
    }
}

fn run_line<'a>(what: &'a str, image: &'a [u8], words: &'a [u64]) -> Line<'a> {
    let start = fresh(image);
    let (mut ours, mut rust) = (start.clone(), start.clone());
    let start_again = start.clone();
    Line {
        what,
        ours: Box::new(move || {
            ours.copy_from_slice(&start);
            timed(|| raw::run(black_box(image), &mut ours, black_box(words)))
        }),
        rust: Box::new(move || {
            rust.copy_from_slice(&start_again);
            timed(|| engine::run(black_box(image), &mut rust, black_box(words)))
        }),
    }
}

fn compare_runs(image: &[u8], words: &[u64]) {
    let (mut ours, mut rust) = (fresh(image), fresh(image));
    let answers = (raw::run(image, &mut ours, words), engine::run(image, &mut rust, words));
    assert_eq!(answers.0, answers.1, "numbers and steps of a run");
    assert_eq!(answers.0, (0, words.len() as u32), "a run of all words");
    assert!(ours == rust, "the state after a run");
}

/// What a side's steps work on.
struct Stepped {
    state: Vec<u8>,
    letters: [u8; 96],
    values: [i32; 96],
}

impl Stepped {
    fn new(image: &[u8]) -> Stepped {
        Stepped { state: fresh(image), letters: [0; 96], values: [0; 96] }
    }

    fn steps(&mut self, image: &[u8], words: &[u64], step: Step) -> u32 {
        let mut refused = 0;
        for &word in words {
            refused += step(black_box(image), &mut self.state, word, &mut self.letters, &mut self.values) as u32;
        }
        refused
    }
}

type Step = fn(&[u8], &mut [u8], u64, &mut [u8], &mut [i32]) -> u8;

fn timed_steps(image: &[u8], words: &[u64], step: Step) -> Duration {
    let mut stepped = Stepped::new(image);
    timed(|| stepped.steps(image, words, step))
}

fn step_line<'a>(image: &'a [u8], words: &'a [u64]) -> Line<'a> {
    Line {
        what: "20,000 calls of step on a state of bytes, each with judge, 21, cycle, letters and values",
        ours: Box::new(move || timed_steps(image, words, raw::step)),
        rust: Box::new(move || timed_steps(image, words, engine::step)),
    }
}

/// The same calls against the bare cycle: a netlist decoded once, a state of structs, nothing tested.
fn cycle_line<'a>(image: &'a [u8], words: &'a [u64]) -> Line<'a> {
    let net = Netlist::decode(image);
    Line {
        what: "the same against the bare cycle in place, nothing judged, tested or converted",
        ours: Box::new(move || timed_steps(image, words, raw::step)),
        rust: Box::new(move || {
            let mut state = engine::State::fresh(&net);
            let (mut letters, mut values) = ([0; 96], [0; 96]);
            timed(|| {
                for &word in words {
                    state.show(black_box(&net), &mut letters, &mut values);
                    state.cycle(black_box(&net), word);
                }
                state.cycles
            })
        }),
    }
}

fn compare_steps(image: &[u8], words: &[u64]) {
    let (mut ours, mut rust) = (Stepped::new(image), Stepped::new(image));
    for word in words {
        let refused = (ours.steps(image, &[*word], raw::step), rust.steps(image, &[*word], engine::step));
        assert_eq!(refused, (0, 0), "the number of a step");
        assert!(ours.state == rust.state, "the state after a step");
        assert_eq!((ours.letters, ours.values), (rust.letters, rust.values), "letters and values of a step");
    }
}

fn strict_line(image: &[u8]) -> Line<'_> {
    let time = |strict: fn(&[u8], u32, &mut [i32]) -> u8| {
        move || {
            let mut values = [0; 64];
            timed(|| strict(black_box(image), black_box(LAST_CYCLE), &mut values))
        }
    };
    Line {
        what: "the strict run to cycle 1,000,000",
        ours: Box::new(time(raw::strict)),
        rust: Box::new(time(strict::strict)),
    }
}

fn compare_stricts(image: &[u8]) {
    for cycle in [0, 1, 2, 1_000, LAST_CYCLE] {
        let (mut ours, mut rust) = ([0; 64], [0; 64]);
        let numbers = (raw::strict(image, cycle, &mut ours), strict::strict(image, cycle, &mut rust));
        assert_eq!(numbers, (0, 0), "the number of a strict run");
        assert_eq!(ours, rust, "strict values of cycle {cycle}");
    }
}

/// A token comes in three calls of four, and the row is stopped below in one of four.
fn offered(call: u32) -> (Option<i32>, bool) {
    ((call & 3 != 0).then_some(5), call & 5 == 1)
}

/// Calls a row bench on an empty row of eight. Answers how many tokens left it.
fn row_often<R: ?Sized>(row: &mut R, bench: impl Fn(&mut R, Option<i32>, bool) -> u8) -> u32 {
    let mut left = 0;
    for call in 0..ROW_CALLS {
        let (token, stop) = offered(call);
        left += (bench(black_box(&mut *row), token, stop) == b'T') as u32;
    }
    left
}

fn our_bench(bytes: &mut [u8], token: Option<i32>, stop: bool) -> u8 {
    raw::row(bytes, token.is_some(), token.unwrap_or(0), stop).1.letter
}

fn timed_rows(bench: fn(&mut [u8], Option<i32>, bool) -> u8) -> Duration {
    let mut row = [0; 8 * STATION_BYTES];
    timed(|| row_often(&mut row[..], bench))
}

fn row_line<'a>() -> Line<'a> {
    Line {
        what: "1,000,000 calls of the row bench, eight records of bytes",
        ours: Box::new(|| timed_rows(our_bench)),
        rust: Box::new(|| timed_rows(|bytes, token, stop| row::bench_bytes(bytes, token, stop).1.letter)),
    }
}

/// The same calls against ordinary Rust on structs.
fn row_structs_line<'a>() -> Line<'a> {
    Line {
        what: "the same against eight records of structs, nothing converted",
        ours: Box::new(|| timed_rows(our_bench)),
        rust: Box::new(|| {
            let mut row = [Station::default(); 8];
            timed(|| row_often(&mut row[..], |row, token, stop| row::bench(row, token, stop).1.letter))
        }),
    }
}

fn compare_rows() {
    let (mut ours, mut rust) = ([0; 8 * STATION_BYTES], [0; 8 * STATION_BYTES]);
    let mut structs = [Station::default(); 8];
    for call in 0..ROW_CALLS {
        let (token, stop) = offered(call);
        let (number, answer) = raw::row(&mut ours, token.is_some(), token.unwrap_or(0), stop);
        let answers = [row::bench_bytes(&mut rust, token, stop), row::bench(&mut structs, token, stop)];
        let ours_as_theirs = row::Answer { letter: answer.letter, value: answer.value, taken: answer.taken };
        assert!(answers == [(number, ours_as_theirs); 2], "the answer of a row bench");
        assert!(ours == rust, "the records after a row bench");
    }
    for (station, record) in structs.iter().zip(ours.as_chunks().0) {
        assert!(*station == Station::read(record), "the records of structs");
    }
}
