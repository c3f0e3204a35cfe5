//! Compares the library with a second simulator (simulator.rs) on pseudo-random inputs (inputs.rs): the number, every
//! other answer and every byte of all that is lent, what lies around it included (calls.rs, harness.rs). Some calls stand
//! alone, others in lists, where each is handed what the one before left (lists.rs); and both are held against what is
//! known without either (known.rs).
//!
//! The seed is fixed; another may be given as an argument. Prints a line for each group of inputs, with how many were
//! accepted and how many each number refused, and last `N passed, M failed`, a group being one test.
mod calls;
mod harness;
mod inputs;
mod known;
mod lists;
mod simulator;

#[path = "../../examples/rust/channel_bench.rs"]
mod channel_bench;

use harness::{Group, Lent};
use inputs::Random;
use simulator::{judge, STATE_BYTES};

const SEED: u64 = 20_261_116;

/// Every number that the library can answer.
const NUMBERS: [u8; 17] = [1, 2, 3, 4, 5, 6, 7, 8, 9, 10, 11, 12, 13, 14, 15, 21, 22];

fn main() {
    let seed = match std::env::args().nth(1) {
        Some(argument) => argument.parse().expect("the seed is a number"),
        None => SEED,
    };
    println!("seed {seed}");
    let tests: [(&'static str, usize, fn(&mut Group, &mut Random)); 14] = [
        ("known", 1, known::known),
        ("judge", 60_000, judges),
        ("fresh", 15_000, freshes),
        ("step", 50_000, steps),
        ("run", 15_000, runs),
        ("strict", 10_000, stricts),
        ("header line", 500, header_lines),
        ("cycle line", 20_000, cycle_lines),
        ("closing line", 10_000, closing_lines),
        ("station", 20_000, stations),
        ("row", 40_000, rows),
        ("token rule", 400, lists::token_rule),
        ("trials", 576, lists::trial),
        ("bench cycles", 100, lists::bench_cycles),
    ];
    let mut groups = Vec::new();
    for (i, (name, count, test)) in tests.into_iter().enumerate() {
        let mut random = Random::new(seed.wrapping_mul(1_000_003).wrapping_add(i as u64));
        let mut group = Group::new(name);
        for _ in 0..count {
            group.begin();
            test(&mut group, &mut random);
        }
        group.print();
        groups.push(group);
    }
    let met = |number: &&u8| groups.iter().any(|group| group.numbers[**number as usize] > 0);
    let (met, unmet): (Vec<u8>, Vec<u8>) = NUMBERS.iter().partition(met);
    println!("numbers met: {met:?}; never met: {unmet:?}");

    // That every number is met is a test too.
    let inputs: usize = groups.iter().map(|group| group.cases).sum();
    let failed = groups.iter().filter(|group| group.wrong > 0).count() + usize::from(!unmet.is_empty());
    println!("{inputs} inputs in {} groups", groups.len());
    println!("{} passed, {failed} failed", groups.len() + 1 - failed);
    std::process::exit(i32::from(failed > 0));
}

fn judges(group: &mut Group, random: &mut Random) {
    calls::judge(group, &inputs::image(random));
}

fn freshes(group: &mut Group, random: &mut Random) {
    let image = inputs::image(random);
    let room = inputs::room(random, STATE_BYTES);
    calls::fresh(group, &image, &mut Lent::bytes(random, room));
}

/// An image, mostly accepted, and a state for it.
fn image_and_state(random: &mut Random) -> (Vec<u8>, Lent<u8>) {
    let image = inputs::mostly_accepted(random);
    let state = inputs::state(random, judge(&image).ok().as_ref());
    let around = random.draw() as u8;
    (image, Lent::of(&state, around))
}

fn word(random: &mut Random, image: &[u8]) -> u64 {
    inputs::word(random, image.first().map_or(1, |&n| n as usize))
}

fn steps(group: &mut Group, random: &mut Random) {
    let (image, mut state) = image_and_state(random);
    let word = word(random, &image);
    let channels = image.get(1).map_or(0, |&c| c as usize);
    let (letters, values) = (inputs::room(random, channels), inputs::room(random, channels));
    let mut letters = Lent::bytes(random, letters);
    let mut values = Lent::values(random, values);
    calls::step(group, &image, &mut state, word, &mut letters, &mut values);
}

fn runs(group: &mut Group, random: &mut Random) {
    let (image, mut state) = image_and_state(random);
    let nodes = image.first().map_or(1, |&n| n as usize);
    let length = random.pick(&[0, 1, 2, 10, 40]);
    let word = if random.one_in(2) { inputs::fitting_word } else { inputs::word };
    let words: Vec<u64> = (0..length).map(|_| word(random, nodes)).collect();
    calls::run(group, &image, &mut state, &words);
}

fn stricts(group: &mut Group, random: &mut Random) {
    let (image, cycle, room) = strict_input(random, group.cases);
    calls::strict(group, &image, cycle, &mut Lent::values(random, room));
}

/// An image, a cycle and the room for its values. The last cycle takes a while, so it comes but twice.
fn strict_input(random: &mut Random, case: usize) -> (Vec<u8>, u32, usize) {
    if case == 100 || case == 200 {
        return (inputs::encode(&inputs::accepted(random)), 1_000_000, 64);
    }
    let image = if random.one_in(8) { inputs::image(random) } else { inputs::mostly_accepted(random) };
    let any = random.below(100) as u32;
    let cycle = random.pick(&[0, 1, 2, 3, 10, 33, 200, 1_000_001, u32::MAX, any]);
    let nodes = image.first().map_or(1, |&n| n as usize);
    (image, cycle, inputs::room(random, nodes))
}

fn cycle_lines(group: &mut Group, random: &mut Random) {
    let (image, mut state) = image_and_state(random);
    let word = word(random, &image);
    let length = simulator::cycle_line(&image, state.read(), word, usize::MAX).map_or(50, |(line, _)| line.len());
    calls::cycle_line(group, &image, &mut state, word, &mut line_room(random, length));
}

fn closing_lines(group: &mut Group, random: &mut Random) {
    let (image, state) = image_and_state(random);
    let length = simulator::closing_line(&image, state.read(), usize::MAX).map_or(50, |line| line.len());
    calls::closing_line(group, &image, &state, &mut line_room(random, length));
}

fn header_lines(group: &mut Group, random: &mut Random) {
    calls::header_line(group, &mut line_room(random, 13));
}

fn line_room(random: &mut Random, length: usize) -> Lent<u8> {
    let room = inputs::room(random, length);
    Lent::bytes(random, room)
}

/// Bytes that are lent to a bench.
fn lent_records(random: &mut Random, records: &[u8]) -> Lent<u8> {
    Lent::of(records, random.draw() as u8)
}

fn stations(group: &mut Group, random: &mut Random) {
    let mut record = inputs::record(random);
    if random.one_in(10) {
        record.resize(random.pick(&[0, 1, 8, 10, 17, 18]), 0);
    }
    let coming = inputs::coming(random);
    calls::station(group, &mut lent_records(random, &record), coming);
}

fn rows(group: &mut Group, random: &mut Random) {
    let records = inputs::row(random);
    let coming = inputs::coming(random);
    calls::row(group, &mut lent_records(random, &records), coming);
}
