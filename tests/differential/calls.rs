//! One call of the library and the same call of the simulator, compared: the number, every other answer, and all that
//! is lent. Each answers the number; what is lent is then as the library left it.
use crate::channel_bench::{raw, Answer};
use crate::harness::{hex, Group, Lent};
use crate::simulator::{self, Benched, Verdict, STATE_BYTES};

/// The number that refuses, 0 for none.
fn number_of<T>(verdict: &Verdict<T>) -> u8 {
    verdict.as_ref().err().copied().unwrap_or(0)
}

pub fn judge(group: &mut Group, image: &[u8]) -> u8 {
    let number = raw::judge(image);
    let judged = simulator::judge(image);
    group.case(number, || hex(image)).same("number", number, number_of(&judged));
    number
}

pub fn fresh(group: &mut Group, image: &[u8], state: &mut Lent<u8>) -> u8 {
    let room = state.length;
    let expected = simulator::fresh(image, room);
    let after = match &expected {
        Ok(fresh) => state.with(fresh),
        Err(_) if room < STATE_BYTES => state.clone(),
        Err(_) => state.with(&[0; STATE_BYTES]),
    };
    let number = raw::fresh(image, state.slice());
    group
        .case(number, || format!("{}, room {room}", hex(image)))
        .same("number", number, number_of(&expected))
        .same_lent("state", state, &after);
    number
}

pub fn step(
    group: &mut Group,
    image: &[u8],
    state: &mut Lent<u8>,
    word: u64,
    letters: &mut Lent<u8>,
    values: &mut Lent<i32>,
) -> u8 {
    let rooms = (letters.length, values.length);
    let before = state.clone();
    let expected = simulator::step(image, state.read(), word, rooms.0, rooms.1);
    let (state_after, letters_after, values_after) = match &expected {
        Ok(stepped) => (state.with(&stepped.state), letters.with(&stepped.letters), values.with(&stepped.values)),
        Err(_) => (state.clone(), letters.clone(), values.clone()),
    };
    let number = raw::step(image, state.slice(), word, letters.slice(), values.slice());
    group
        .case(number, || format!("{}, word {word:#x}, rooms {rooms:?}, {}", hex(image), state_of(&before)))
        .same("number", number, number_of(&expected))
        .same_lent("state", state, &state_after)
        .same_lent("letters", letters, &letters_after)
        .same_lent("values", values, &values_after);
    number
}

/// What is worth showing of a state.
fn state_of(state: &Lent<u8>) -> String {
    let bytes = state.read();
    match bytes.first_chunk() {
        Some(cycles) => format!("state of {} bytes, cycle count {}", bytes.len(), u32::from_le_bytes(*cycles)),
        None => format!("state of {} bytes", bytes.len()),
    }
}

/// Answers the steps too.
pub fn run(group: &mut Group, image: &[u8], state: &mut Lent<u8>, words: &[u64]) -> (u8, u32) {
    let before = state.clone();
    let expected = simulator::run(image, state.read(), words);
    let after = expected.state.map_or(state.clone(), |bytes| state.with(&bytes));
    let (number, steps) = raw::run(image, state.slice(), words);
    group
        .case(number, || {
            let shown = &words[..words.len().min(60)];
            format!("{}, {} words {shown:x?}, {}", hex(image), words.len(), state_of(&before))
        })
        .same("number", number, expected.number)
        .same("steps", steps, expected.steps)
        .same_lent("state", state, &after);
    (number, steps)
}

pub fn strict(group: &mut Group, image: &[u8], cycle: u32, values: &mut Lent<i32>) -> u8 {
    let room = values.length;
    let expected = simulator::strict(image, cycle, room);
    let after = expected.as_ref().map_or(values.clone(), |result| values.with(result));
    let number = raw::strict(image, cycle, values.slice());
    group
        .case(number, || format!("{}, cycle {cycle}, room {room}", hex(image)))
        .same("number", number, number_of(&expected))
        .same_lent("values", values, &after);
    number
}

pub fn cycle_line(group: &mut Group, image: &[u8], state: &mut Lent<u8>, word: u64, out: &mut Lent<u8>) -> u8 {
    let room = out.length;
    let before = state.clone();
    let expected = simulator::cycle_line(image, state.read(), word, room);
    let (out_after, state_after, length) = match &expected {
        Ok((line, bytes)) => (out.with(line.as_bytes()), state.with(bytes), line.len()),
        Err(_) => (out.clone(), state.clone(), 0),
    };
    let (number, written) = raw::cycle_line(image, state.slice(), word, out.slice());
    group
        .case(number, || format!("{}, word {word:#x}, room {room}, {}", hex(image), state_of(&before)))
        .same("number", number, number_of(&expected))
        .same("length", written, length)
        .same_lent("line", out, &out_after)
        .same_lent("state", state, &state_after);
    number
}

pub fn closing_line(group: &mut Group, image: &[u8], state: &Lent<u8>, out: &mut Lent<u8>) -> u8 {
    let expected = simulator::closing_line(image, state.read(), out.length);
    let described = || format!("{}, {}", hex(image), state_of(state));
    line(group, out, expected, described, |out| raw::closing_line(image, state.read(), out))
}

pub fn header_line(group: &mut Group, out: &mut Lent<u8>) -> u8 {
    let expected = simulator::header_line(out.length);
    line(group, out, expected, String::new, raw::header_line)
}

/// A function that writes a line and nothing else.
fn line(
    group: &mut Group,
    out: &mut Lent<u8>,
    expected: Verdict<String>,
    described: impl Fn() -> String,
    write: impl FnOnce(&mut [u8]) -> (u8, usize),
) -> u8 {
    let after = expected.as_ref().map_or(out.clone(), |line| out.with(line.as_bytes()));
    let (number, written) = write(out.slice());
    group
        .case(number, || format!("{} room {}", described(), after.length))
        .same("number", number, number_of(&expected))
        .same("length", written, expected.as_ref().map_or(0, |line| line.len()))
        .same_lent("line", out, &after);
    number
}

/// What comes to a bench in a cycle. The value stands beside a clear bit too.
#[derive(Clone, Copy)]
pub struct Coming {
    pub valid: bool,
    pub value: i32,
    pub stop: bool,
}

pub fn station(group: &mut Group, record: &mut Lent<u8>, coming: Coming) -> u8 {
    bench(group, record, coming, simulator::station, raw::station)
}

pub fn row(group: &mut Group, records: &mut Lent<u8>, coming: Coming) -> u8 {
    bench(group, records, coming, simulator::row, raw::row)
}

/// A bench, from the simulator's and the library's.
fn bench(
    group: &mut Group,
    records: &mut Lent<u8>,
    Coming { valid, value, stop }: Coming,
    simulated: fn(&[u8], Option<i32>, bool) -> Verdict<Benched>,
    bench: fn(&mut [u8], bool, i32, bool) -> (u8, Answer),
) -> u8 {
    let before = records.clone();
    let expected = simulated(records.read(), valid.then_some(value), stop);
    let (after, answer) = match &expected {
        Ok(benched) => (records.with(&benched.records), (benched.letter, benched.value, benched.taken)),
        Err(_) => (records.clone(), (0, 0, false)),
    };
    let (number, answered) = bench(records.slice(), valid, value, stop);
    group
        .case(number, || format!("{}, valid {valid}, value {value}, stop {stop}", hex(before.read())))
        .same("number", number, number_of(&expected))
        .same("letter, value and taken", (answered.letter, answered.value, answered.taken), answer)
        .same_lent("records", records, &after);
    number
}
