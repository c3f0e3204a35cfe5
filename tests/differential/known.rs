//! What is known without a simulator: figure 4, table 1 (README), the sizes at their limits, and the ends of long runs.
//! Library and simulator are both held against it.
use crate::calls;
use crate::channel_bench::{self, raw, Answer, Refused};
use crate::harness::{hex, Group, Lent};
use crate::inputs::{self, Random};
use crate::lists::number_at;
use crate::simulator::{self, judge, node_place, pending_place, queue_place, station_place, Netlist, STATE_BYTES};

pub fn known(group: &mut Group, _: &mut Random) {
    figure4(group);
    table1(group);
    limits(group);
    wrapper(group);
    long_runs(group);
    long_row(group);
    repeated_judge(group);
}

fn figure4(group: &mut Group) {
    let image = figure4_image();
    let mut state = vec![0; STATE_BYTES];
    group.case(raw::fresh(&image, &mut state), || "figure 4".to_string());
    let mut other = simulator::fresh(&image, STATE_BYTES).unwrap();
    let (mut text, mut simulated) = (line(raw::header_line), simulator::header_line(99).unwrap());
    for word in FIGURE4_WORDS {
        text += &line(|out| raw::cycle_line(&image, &mut state, word, out));
        let (line, after) = simulator::cycle_line(&image, &other, word, 99).unwrap();
        simulated += &line;
        other = after;
    }
    text += &line(|out| raw::closing_line(&image, &state, out));
    simulated += &simulator::closing_line(&image, &other, 99).unwrap();
    let mut case = group.case(0, || "figure 4".to_string());
    case.same("trace", text.as_str(), FIGURE4);
    case.same("the simulator's own trace", simulated.as_str(), FIGURE4);
}

fn table1(group: &mut Group) {
    let mut record = vec![0; 9];
    let mut simulated = record.clone();
    for (cycle, letter, value) in TABLE1 {
        let token = [(0, 1), (1, 2), (2, 3), (7, 4)].into_iter().find(|&(c, _)| c == cycle).map(|(_, token)| token);
        let stop = [2, 3, 7, 8].contains(&cycle);
        let (number, answer) = raw::station(&mut record, token.is_some(), token.unwrap_or(9), stop);
        let benched = simulator::station(&simulated, token, stop).unwrap();
        group
            .case(number, || format!("table 1, cycle {cycle}"))
            .same("answer", (answer.letter, answer.value, answer.taken), (letter, value, token.is_some()))
            .same("the simulator's own", (benched.letter, benched.value), (letter, value))
            .same("record", &record, &benched.records);
        simulated = benched.records;
    }
}

fn limits(group: &mut Group) {
    for (nodes, channels, number) in [(64, 0, 0), (65, 0, 2), (0, 0, 2), (64, 96, 0), (64, 97, 2), (65, 96, 2)] {
        let image = inputs::encode(&sized(nodes, channels, 0));
        sizes(group, &image, number);
    }
    for (stations, number) in [(256, 0), (257, 11)] {
        sizes(group, &inputs::encode(&sized(64, 96, stations)), number);
    }
}

/// The functions of the wrapper that stand on those compared here, on figure 4 and on an empty row.
fn wrapper(group: &mut Group) {
    let image = figure4_image();
    let mut state = channel_bench::fresh(&image).expect("figure 4 is accepted");
    let ran = channel_bench::run(&image, &mut state, &FIGURE4_WORDS[..10]);
    let (mut letters, mut values, mut strict) = ([0; 4], [0; 4], [0; 5]);
    let stepped = channel_bench::step(&image, &mut state, FIGURE4_WORDS[10], &mut letters, &mut values);
    let worked = channel_bench::strict(&image, 8, &mut strict);
    let mut row = [[0; 9]; 8];

    let mut case = group.case(0, || "figure 4".to_string());
    case.same("a run", ran, (10, None));
    case.same("a step", (stepped, &letters, values), (Ok(()), b"TTTT", [17, 107, 122, 122]));
    case.same("cycle count", state.cycles(), 11);
    case.same("strict values", (worked, strict), (Ok(()), [18, 108, 124, 122, 122]));
    case.same("values", std::array::from_fn(|i| state.value(i)), strict);
    case.same("firings", std::array::from_fn(|i| state.firings(i)), [8; 5]);
    case.same("the edition", channel_bench::edition(), channel_bench::EDITION);
    case.same("a short image", channel_bench::judge(&image[..46]), Err(Refused::LENGTH));
    let answer = Answer { letter: b'I', value: 0, taken: true };
    case.same("a row", channel_bench::row(&mut row, Some(-2), false), Ok(answer));
    case.same("its records", (row[0], row[1]), ([254, 255, 255, 255, 0, 0, 0, 0, 1], [0; 9]));
    case.same(
        "a station",
        channel_bench::station(&mut row[1], None, true),
        Ok(Answer { letter: b'S', taken: false, ..answer }),
    );
    case.same("no row", channel_bench::row(&mut [], None, false), Err(Refused::ROW));
    case.same("a cause", Refused::ROW.to_string(), "refused 15: row of no records or over 8".to_string());
}

fn sizes(group: &mut Group, image: &[u8], number: u8) {
    let judged = raw::judge(image);
    let simulated = judge(image).err().unwrap_or(0);
    group.case(judged, || hex(image)).same("number", judged, number).same("the simulator's own", simulated, number);
}

fn figure4_image() -> Vec<u8> {
    let mut image = vec![5, 4, 1, 1, 6, 2, 2];
    image.extend([10i32, 100, 0, 0, 0].iter().flat_map(|parameter| parameter.to_le_bytes()));
    image.extend([0, 2, 0, 1, 2, 1, 2, 3, 0, 2, 4, 0, 0, 2, 0, 2, 0, 1, 0, 1]);
    image
}

const FIGURE4_WORDS: [u64; 11] = [1, 0, 0, 16, 0, 0, 3, 3, 8, 0, 0];

const FIGURE4: &str = "\
cycle states
0 T10 T100 T0 T0
1 I T101 T110 T110
2 T11 T102 I I
3 T12 T103 T112 T112
4 T13 T104 T114 R114
5 T14 R105 I T114
6 T15 T105 T116 T116
7 I I T118 T118
8 I I T120 T120
9 T16 T106 S I
10 T17 T107 T122 T122
fired 8 8 8 8 8
";

const TABLE1: [(usize, u8, i32); 10] = [
    (0, b'I', 0),
    (1, b'T', 1),
    (2, b'R', 2),
    (3, b'R', 2),
    (4, b'T', 2),
    (5, b'T', 3),
    (6, b'I', 0),
    (7, b'S', 0),
    (8, b'R', 4),
    (9, b'T', 4),
];

/// A line of a trace from the library, as text.
fn line(write: impl FnOnce(&mut [u8]) -> (u8, usize)) -> String {
    let mut out = [0; 2_000];
    match write(&mut out) {
        (0, length) if length <= out.len() => String::from_utf8_lossy(&out[..length]).into_owned(),
        (number, length) => format!("number {number}, length {length}\n"),
    }
}

/// A netlist of so many nodes and channels with so many stations. Up to 64 and 96 all its ports are fed.
fn sized(nodes: usize, channels: usize, stations: usize) -> Netlist {
    let kind = |i: usize| match channels {
        0 => 1,
        _ if i < 32 => 6,
        _ => 2,
    };
    let nodes = (0..nodes).map(|i| simulator::Core { kind: kind(i), parameter: 0 }).collect();
    let channels = (0..channels).map(|c| simulator::Channel {
        from: c % 64,
        to: c % 64,
        port: c / 64,
        stations: stations.saturating_sub(8 * c).min(8),
        depth: 1,
    });
    Netlist { nodes, channels: channels.collect() }
}


/// The large netlist: 64 nodes, 96 channels and 200 stations.
fn large() -> Vec<u8> {
    std::fs::read("tests/images/large.image").expect("tests/images has the large image")
}

/// What 100,000 cycles of the large netlist come to: the sum of the nodes' firings, and the checksum of the state.
const FREE: (u64, u64) = (1_825_120, 1_745_024_204);

/// The same with each stall bit set in one word of sixteen.
const STALLED: (u64, u64) = (1_775_948, 1_673_919_555);

fn long_runs(group: &mut Group) {
    let image = large();
    for (stalls, known) in [(false, FREE), (true, STALLED)] {
        let words: Vec<u64> = if stalls { sparse_words() } else { vec![0; 100_000] };
        let mut state = Lent::of(&simulator::fresh(&image, STATE_BYTES).unwrap(), 7);
        let ran = calls::run(group, &image, &mut state, &words);
        let firings: u64 = (0..64).map(|i| u64::from(number_at(state.read(), node_place(i) + 4))).sum();
        group
            .case(0, || format!("100,000 cycles, stalls {stalls}"))
            .same("number and steps", ran, (0, 100_000))
            .same("firings and checksum", (firings, checksum(state.read())), known);
    }
}

/// 100,000 words of a xorshift generator, each four draws and-ed, so that a bit is set in one of sixteen.
fn sparse_words() -> Vec<u64> {
    let mut x: u64 = 88_172_645_463_325_252;
    let mut drawn = || {
        x ^= x << 13;
        x ^= x >> 7;
        x ^= x << 17;
        x
    };
    (0..100_000).map(|_| drawn() & drawn() & drawn() & drawn()).collect()
}

/// All fields of a state as the digits of a number in base 65,599, modulo 2^32 - 5. A value counts as its sign and its
/// magnitude; whether a channel has a token pending stands before its queue.
fn checksum(state: &[u8]) -> u64 {
    let values = |at: usize, count: usize| {
        let value = move |i: usize| number_at(state, at + 4 * i) as i32;
        (0..count).flat_map(move |i| [u32::from(value(i) < 0), value(i).unsigned_abs()])
    };
    let count = |at: usize| std::iter::once(u32::from(state[at]));
    let nodes = (0..64).map(node_place).flat_map(|at| values(at, 1).chain([number_at(state, at + 4)]));
    let stations = (0..768).map(|i| station_place(i / 8, i % 8)).flat_map(|at| values(at, 2).chain(count(at + 8)));
    let channels = (0..96).map(|c| (pending_place(c), queue_place(c)));
    let channels = channels.flat_map(|(pending, queue)| count(pending).chain(values(queue, 8)).chain(count(queue + 32)));
    let fields = [number_at(state, 0)].into_iter().chain(nodes).chain(stations).chain(channels);
    const MODULUS: u64 = (1 << 32) - 5;
    fields.fold(0, |sum, field| (sum * 65_599 + u64::from(field) % MODULUS) % MODULUS)
}

/// A row of eight through 1,000,000 calls: a token comes in three of four, and the row is stopped below in one of four.
fn long_row(group: &mut Group) {
    let mut row = [0; 72];
    let passed = |&i: &u32| {
        let (number, answer) = raw::row(&mut row, i & 3 != 0, 5, i & 5 == 1);
        number == 0 && answer.letter == b'T'
    };
    let left = (0..1_000_000).filter(passed).count();
    group.case(0, || "1,000,000 calls on a row".to_string()).same("left, and in the last", (left, row[71]), (749_993, 1));
}

/// No number depends on a parameter.
fn repeated_judge(group: &mut Group) {
    let mut image = std::fs::read("tests/images/judge.image").expect("tests/images has the judge's image");
    for parameter in 0..=255 {
        image[66] = parameter;
        let number = calls::judge(group, &image);
        group.case(number, || format!("parameter {parameter}")).same("number", number, 0);
    }
}
