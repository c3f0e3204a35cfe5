//! Pseudo-random inputs: images, states, stall words, station records and the room of lent arrays, good and bad.
use crate::calls::Coming;
use crate::simulator::{inputs, node_place, pending_place, queue_place, station_place};
use crate::simulator::{Channel, Core, Netlist, State, STATE_BYTES, STATION_BYTES};
use std::collections::VecDeque;

/// A splitmix64 generator.
pub struct Random(u64);

impl Random {
    pub fn new(seed: u64) -> Random {
        Random(seed)
    }

    pub fn draw(&mut self) -> u64 {
        self.0 = self.0.wrapping_add(0x9e37_79b9_7f4a_7c15);
        let mut z = self.0;
        z = (z ^ (z >> 30)).wrapping_mul(0xbf58_476d_1ce4_e5b9);
        z = (z ^ (z >> 27)).wrapping_mul(0x94d0_49bb_1331_11eb);
        z ^ (z >> 31)
    }

    /// A number below `end`; 0 if there is none.
    pub fn below(&mut self, end: usize) -> usize {
        (self.draw() % end.max(1) as u64) as usize
    }

    pub fn between(&mut self, first: usize, last: usize) -> usize {
        first + self.below(last - first + 1)
    }

    pub fn one_in(&mut self, count: usize) -> bool {
        self.below(count) == 0
    }

    pub fn pick<T: Copy>(&mut self, choices: &[T]) -> T {
        choices[self.below(choices.len())]
    }

    pub fn bytes(&mut self, length: usize) -> Vec<u8> {
        let mut bytes: Vec<u8> = (0..length.div_ceil(8)).flat_map(|_| self.draw().to_le_bytes()).collect();
        bytes.truncate(length);
        bytes
    }

    /// A value: small, at an end of the range, or any.
    pub fn value(&mut self) -> i32 {
        match self.below(4) {
            0 => self.draw() as i32,
            1 => self.pick(&[i32::MIN, i32::MIN + 1, i32::MAX, i32::MAX - 1, -1, 0]),
            _ => self.below(200) as i32 - 100,
        }
    }
}

/// How the ports of a netlist are wired, and its kinds are drawn.
#[derive(Clone, Copy)]
pub enum Shape {
    Any,
    Ring,
    Reconvergent,
    SelfLoops,
    FanOut,
    /// As any, of more than half as many nodes as there may be, and often all.
    Large,
}

impl Shape {
    pub const ALL: [Shape; 6] =
        [Shape::Any, Shape::Ring, Shape::Reconvergent, Shape::SelfLoops, Shape::FanOut, Shape::Large];

    /// Node 0 of reconvergent paths and of a fan-out counts, and no node of a ring does.
    fn kind(self, random: &mut Random, node: usize) -> u8 {
        match (self, node) {
            (Shape::Reconvergent | Shape::FanOut, 0) => 1,
            (Shape::Any | Shape::Large, _) => random.between(1, 9) as u8,
            (Shape::Ring, _) if !random.one_in(4) => random.between(2, 5) as u8,
            (Shape::Ring, _) => random.between(6, 9) as u8,
            (Shape::Reconvergent, _) => random.pick(&[2, 3, 4, 5, 6, 6, 7, 7, 8, 8, 9]),
            _ => random.between(2, 9) as u8,
        }
    }
}

/// An image of any sort.
pub fn image(random: &mut Random) -> Vec<u8> {
    match random.below(12) {
        0 => tiny(random),
        1 => plausible(random),
        2..=5 => damaged(random),
        6 => encode(&largest(random)),
        _ => encode(&accepted(random)),
    }
}

/// An image that is mostly accepted, for calls that test more than the image.
pub fn mostly_accepted(random: &mut Random) -> Vec<u8> {
    match random.below(16) {
        0 => image(random),
        1 => encode(&largest(random)),
        _ => encode(&accepted(random)),
    }
}

fn tiny(random: &mut Random) -> Vec<u8> {
    let length = random.below(9);
    random.bytes(length)
}

/// An image of few nodes and the right length, its fields drawn from their ranges and just beyond.
fn plausible(random: &mut Random) -> Vec<u8> {
    let (n, c) = (random.between(1, 3), random.below(5));
    let nodes = (0..n).map(|_| Core { kind: random.between(1, 10) as u8 % 10, parameter: random.value() }).collect();
    let channels = (0..c).map(|_| Channel {
        from: random.below(n) + usize::from(random.one_in(20)),
        to: random.below(n) + usize::from(random.one_in(20)),
        port: random.below(2) + usize::from(random.one_in(6)),
        stations: random.below(9) + usize::from(random.one_in(20)),
        depth: random.between(1, 8) + usize::from(random.one_in(20)),
    });
    let channels = channels.collect();
    encode(&Netlist { nodes, channels })
}

/// An accepted netlist of 1 to 64 nodes and 0 to 96 channels.
pub fn accepted(random: &mut Random) -> Netlist {
    let shape = random.pick(&Shape::ALL);
    of_shape(random, shape)
}

/// The same of a shape.
pub fn of_shape(random: &mut Random, shape: Shape) -> Netlist {
    let nodes = match (shape, random.below(16)) {
        (Shape::Large, n) if n < 5 => 64,
        (Shape::Large, _) => random.between(33, 63),
        (_, 0) => 1,
        (_, 1..=10) => random.between(2, 8),
        (_, 11..=13) => random.between(9, 20),
        (_, 14) => random.between(21, 64),
        _ => 64,
    };
    // A node counts if the channels would be over 96.
    let mut room = 96;
    let kinds = (0..nodes).map(|i| {
        let kind = shape.kind(random, i);
        let kind = if inputs(kind).unwrap_or(0) > room { 1 } else { kind };
        room -= inputs(kind).unwrap_or(0);
        kind
    });
    let kinds: Vec<u8> = kinds.collect();
    wired(random, &kinds, shape)
}

/// A netlist of 64 nodes, 96 channels and 256 stations.
fn largest(random: &mut Random) -> Netlist {
    let mut kinds: Vec<u8> = (0..64).map(|_| random.between(2, 5) as u8).collect();
    let mut missing = 32;
    while missing > 0 {
        let i = random.below(64);
        if inputs(kinds[i]) == Some(1) {
            kinds[i] = if missing > 1 && random.one_in(4) { 9 } else { random.between(6, 8) as u8 };
            missing -= inputs(kinds[i]).unwrap_or(0) - 1;
        }
    }
    let mut net = wired(random, &kinds, Shape::Any);
    set_stations(&mut net, random, 256);
    net
}

/// Feeds every port of the nodes, and gives every channel stations and a queue.
fn wired(random: &mut Random, kinds: &[u8], shape: Shape) -> Netlist {
    let n = kinds.len();
    let nodes = kinds.iter().map(|&kind| Core { kind, parameter: random.value() }).collect();
    let mut channels = Vec::new();
    let most_stations = random.pick(&[0, 1, 2, 8]);
    let most_depth = random.pick(&[1, 2, 8]);
    let mut left = 256;
    for (to, &kind) in kinds.iter().enumerate() {
        for port in 0..inputs(kind).unwrap_or(0) {
            let from = match shape {
                Shape::Ring if port == 0 => (to + n - 1) % n,
                Shape::SelfLoops if port == 0 => to,
                Shape::Reconvergent => random.below(to),
                Shape::FanOut if !random.one_in(8) => 0,
                _ => random.below(n),
            };
            let stations = random.between(0, most_stations).min(left);
            left -= stations;
            channels.push(Channel { from, to, port, stations, depth: random.between(1, most_depth) });
        }
    }
    // Channels stand in any order.
    for i in 1..channels.len() {
        channels.swap(i, random.below(i + 1));
    }
    Netlist { nodes, channels }
}

/// Sets the stations of a netlist at random, so that they come to `total` if there are channels enough.
fn set_stations(net: &mut Netlist, random: &mut Random, total: usize) {
    net.channels.iter_mut().for_each(|ch| ch.stations = 0);
    let total = total.min(8 * net.channels.len());
    let mut done = 0;
    while done < total {
        let c = random.below(net.channels.len());
        if net.channels[c].stations < 8 {
            net.channels[c].stations += 1;
            done += 1;
        }
    }
}

/// An accepted image with one to three damages, some of which leave it accepted.
fn damaged(random: &mut Random) -> Vec<u8> {
    let mut net = if random.one_in(4) { largest(random) } else { accepted(random) };
    for _ in 0..random.pick(&[0, 1, 1, 1, 2, 3]) {
        damage_netlist(&mut net, random);
    }
    let mut image = encode(&net);
    match random.below(12) {
        0 => {
            let at = random.below(image.len());
            image[at] = random.draw() as u8;
        }
        1 => {
            let at = random.below(image.len());
            image[at] = image[at].wrapping_add(random.pick(&[1, 255]));
        }
        2 => {
            let less = random.pick(&[1, 2, 5, 8]);
            image.truncate(image.len().saturating_sub(less));
        }
        3 => {
            let more = random.pick(&[1, 2, 5, 8]);
            image.extend(random.bytes(more));
        }
        4 => image[0] = random.pick(&[0, 1, 63, 64, 65, 255]),
        5 => image[1] = random.pick(&[0, 1, 95, 96, 97, 255]),
        _ => {}
    }
    image
}

fn damage_netlist(net: &mut Netlist, random: &mut Random) {
    let n = net.nodes.len();
    let node = random.below(n);
    match random.below(12) {
        0 => net.nodes[node].kind = random.pick(&[0, 10, 255]),
        1 => net.nodes[node].kind = random.between(1, 9) as u8,
        2 => set_stations(net, random, 256),
        3 => set_stations(net, random, 257),
        // The sizes at their limits, with the length that they ask for.
        4 => net.nodes.resize(random.pick(&[64, 65]), Core { kind: 1, parameter: 0 }),
        5 => {
            let filler = Channel { from: 0, to: node, port: random.below(3), stations: 0, depth: 1 };
            net.channels.resize(random.pick(&[96, 97]), filler);
        }
        _ if net.channels.is_empty() => net.channels.push(Channel { from: 0, to: 0, port: 0, stations: 0, depth: 1 }),
        damage => {
            let (c, other) = (random.below(net.channels.len()), random.below(net.channels.len()));
            let twin = net.channels[other].clone();
            let channel = &mut net.channels[c];
            match damage {
                6 if random.one_in(2) => channel.from = random.pick(&[n, n + 1, 255]),
                6 => channel.to = random.pick(&[n, n + 1, 255]),
                7 => channel.port = random.pick(&[0, 1, 2, 3, 255]),
                8 => (channel.to, channel.port) = (twin.to, twin.port),
                9 => drop(net.channels.remove(c)),
                10 => channel.stations = random.pick(&[8, 9, 255]),
                _ => channel.depth = random.pick(&[0, 8, 9, 255]),
            }
        }
    }
}

/// The image of a netlist.
pub fn encode(net: &Netlist) -> Vec<u8> {
    let mut image = vec![net.nodes.len() as u8, net.channels.len() as u8];
    image.extend(net.nodes.iter().map(|node| node.kind));
    image.extend(net.nodes.iter().flat_map(|node| node.parameter.to_le_bytes()));
    image.extend(net.channels.iter().flat_map(|ch| [ch.from as u8, ch.to as u8, ch.port as u8]));
    image.extend(net.channels.iter().flat_map(|ch| [ch.stations as u8, ch.depth as u8]));
    image
}

/// A stall word: none, few, many or all bits below N, and sometimes one above.
pub fn word(random: &mut Random, nodes: usize) -> u64 {
    let word = fitting_word(random, nodes);
    let any = random.below(64);
    if random.one_in(12) {
        word | 1 << random.pick(&[nodes % 64, 63, any])
    } else {
        word
    }
}

/// A stall word without bits at or above N.
pub fn fitting_word(random: &mut Random, nodes: usize) -> u64 {
    let word = match random.below(8) {
        0..=2 => 0,
        3 | 4 => random.draw() & random.draw() & random.draw(),
        5 => 1 << random.below(nodes),
        6 => random.draw(),
        _ => !(random.draw() & random.draw()),
    };
    word & (u64::MAX >> (64 - nodes.clamp(1, 64)))
}

/// Which nodes are stalled, cycle by cycle: at random, or as tries hardest to upset an engine.
#[derive(Clone, Copy)]
pub enum Pattern {
    /// At random, a quarter of them.
    Few,
    Nobody,
    /// All, ten cycles of twenty.
    Bursts,
    /// One node for forty cycles of sixty.
    One(usize),
    /// The even and the odd ones by turns.
    ByTurns,
    /// All but one, another one every third cycle.
    AllButOne,
    /// At random, two cycles of six.
    Pairs,
    /// At random, half of them.
    Many,
}

impl Pattern {
    /// Pattern `number` of eight.
    pub fn of(number: usize, random: &mut Random) -> Pattern {
        match number {
            0 => Pattern::Few,
            1 => Pattern::Nobody,
            2 => Pattern::Bursts,
            3 => Pattern::One(random.below(64)),
            4 => Pattern::ByTurns,
            5 => Pattern::AllButOne,
            6 => Pattern::Pairs,
            _ => Pattern::Many,
        }
    }

    /// The word of cycle `t`.
    pub fn word(self, random: &mut Random, t: usize, nodes: usize) -> u64 {
        let early = |word: u64, cycles: usize, span: usize| if t % span < cycles { word } else { 0 };
        let word = match self {
            Pattern::Few => random.draw() & random.draw(),
            Pattern::Nobody => 0,
            Pattern::Bursts => early(u64::MAX, 10, 20),
            Pattern::One(node) => early(1 << (node % nodes), 40, 60),
            Pattern::ByTurns => 0x5555_5555_5555_5555 << (t % 2),
            Pattern::AllButOne => !(1 << (t / 3 % nodes)),
            Pattern::Pairs => early(random.draw(), 2, 6),
            Pattern::Many => random.draw(),
        };
        word & (u64::MAX >> (64 - nodes))
    }
}

/// A word with one bit, at or above N; of 64 nodes, a word with every bit, which is not refused.
pub fn word_above(random: &mut Random, nodes: usize) -> u64 {
    match nodes {
        64 => u64::MAX,
        _ => 1 << random.between(nodes, 63),
    }
}

/// A state for a netlist, fitting or not. A netlist that is not there gets one of some other.
pub fn state(random: &mut Random, net: Option<&Netlist>) -> Vec<u8> {
    let other;
    let net = match net {
        Some(net) => net,
        None => {
            other = accepted(random);
            &other
        }
    };
    let mut bytes = fitting_state(random, net).bytes();
    match random.below(10) {
        0 => {
            let at = random.below(bytes.len());
            bytes[at] = random.draw() as u8;
        }
        1..=3 => damage_state(&mut bytes, random, net),
        4 if random.one_in(3) => resize_state(&mut bytes, random),
        5 if random.one_in(20) => bytes = random.bytes(STATE_BYTES),
        5 if random.one_in(20) => bytes.fill(0),
        _ => {}
    }
    bytes
}

/// A state that fits: fresh or run on, at any cycle count, with any tokens.
pub fn fitting_state(random: &mut Random, net: &Netlist) -> State {
    let mut state = State::fresh(net);
    let n = net.nodes.len();
    // The same nodes stalled all the time fill the queues before them.
    let kept = random.one_in(3).then(|| fitting_word(random, n));
    for _ in 0..random.pick(&[0, 1, 3, 8, 20]) {
        let word = kept.unwrap_or_else(|| fitting_word(random, n));
        state.cycle(net, word);
    }
    if random.one_in(4) {
        state.cycle = random.pick(&[state.cycle + 1, 99_999, 999_990, 999_998, 999_999, 1_000_000, 1_000_000]);
        let most = state.shells.iter().map(|shell| shell.firings).max().unwrap_or(0);
        let spare = state.cycle - most;
        let any = random.below(spare as usize + 1) as u32;
        let more = random.pick(&[0, 1, any, spare]).min(spare);
        state.shells.iter_mut().for_each(|shell| shell.firings += more);
    }
    if random.one_in(4) {
        state.shells.iter_mut().for_each(|shell| shell.value = random.value());
        let redraw = |tokens: &mut VecDeque<i32>, random: &mut Random| {
            tokens.iter_mut().for_each(|token| *token = random.value());
        };
        for wire in &mut state.wires {
            wire.stations.iter_mut().for_each(|station| redraw(station, random));
            redraw(&mut wire.queue, random);
        }
    }
    state
}

/// Changes a field that number 21 looks at, in what the netlist uses or just beyond it.
fn damage_state(bytes: &mut [u8], random: &mut Random, net: &Netlist) {
    let (n, c) = (net.nodes.len(), net.channels.len());
    let node = if random.one_in(4) { n.min(63) } else { random.below(n) };
    let channel = if random.one_in(4) { c.min(95) } else { random.below(c) };
    let stations = net.channels.get(channel).map_or(0, |ch| ch.stations);
    let station = if random.one_in(4) { stations.min(7) } else { random.below(stations) };
    let record = station_place(channel, station);
    let queue = queue_place(channel);
    let nudge = random.pick(&[1, 255]);
    let at = match random.below(9) {
        0 => 0,
        1 => random.below(4),
        2 => node_place(node) + random.below(4),
        3 => node_place(node) + 4,
        4 => pending_place(channel),
        5 => record + 8,
        6 => record + random.below(8),
        7 => queue + 32,
        _ => queue + random.below(32),
    };
    bytes[at] = bytes[at].wrapping_add(nudge);
    // A firing more, and a pending byte that may make up for it.
    if random.one_in(8) {
        bytes[pending_place(channel)] ^= 1;
    }
}

/// Draws one field of a state anew, in what the netlist uses or, one time in eight, anywhere. A token of another value
/// still fits.
pub fn redraw_field(bytes: &mut [u8], random: &mut Random, net: &Netlist) {
    let mut place = |used: usize, places: usize| {
        let end = if random.one_in(8) { places } else { used };
        random.below(end)
    };
    let (node, channel) = (place(net.nodes.len(), 64), place(net.channels.len(), 96));
    let station = station_place(channel, random.below(8));
    let queue = queue_place(channel);
    let token = 4 * random.below(2);
    let count = if random.one_in(4) { random.draw() as u8 } else { random.below(4) as u8 };
    let few = random.below(32) as u32;
    match random.below(8) {
        0 => put(bytes, node_place(node), random.value() as u32),
        1 => put(bytes, station + token, random.value() as u32),
        2 => put(bytes, queue + token, random.value() as u32),
        3 => bytes[pending_place(channel)] = count,
        4 => bytes[station + 8] = count,
        5 => bytes[queue + 32] = count,
        6 => put(bytes, node_place(node) + 4, if random.one_in(8) { u32::MAX } else { few }),
        _ => put(bytes, 0, random.pick(&[0, 999_999, 1_000_000, 1_000_001, u32::MAX, few])),
    }
}

fn put(bytes: &mut [u8], at: usize, number: u32) {
    bytes[at..at + 4].copy_from_slice(&number.to_le_bytes());
}

/// The image of a netlist with something changed: its length, every channel's stations, a byte of its channels or any.
pub fn changed_image(random: &mut Random, net: &Netlist) -> Vec<u8> {
    let mut image = encode(net);
    let (length, channels) = (image.len(), 5 * net.channels.len());
    match random.below(10) {
        0 => image.truncate(random.below(length)),
        1 => image.truncate(random.below(3)),
        2 => image.push(0),
        3 => {
            let mut full = net.clone();
            full.channels.iter_mut().for_each(|channel| channel.stations = 8);
            image = encode(&full);
        }
        4..=6 if channels > 0 => image[length - channels + random.below(channels)] = random.below(12) as u8,
        _ => image[random.below(length)] = if random.one_in(3) { random.draw() as u8 } else { random.below(12) as u8 },
    }
    image
}

fn resize_state(bytes: &mut Vec<u8>, random: &mut Random) {
    let any = random.below(STATE_BYTES);
    let length = random.pick(&[0, 1, STATE_BYTES - 1, STATE_BYTES + 1, 2 * STATE_BYTES, any]);
    // What stands behind a state is anything.
    let behind = random.draw() as u8;
    bytes.resize(length, behind);
}

/// Room for a result of `need` places: more, exact or too little.
pub fn room(random: &mut Random, need: usize) -> usize {
    match random.below(16) {
        0 => need.saturating_sub(1),
        1 if random.one_in(2) => random.below(need),
        2 if random.one_in(4) => 0,
        3..=6 => need,
        7 => need + 1,
        _ => need + random.below(100),
    }
}

/// What comes to a bench in a cycle.
pub fn coming(random: &mut Random) -> Coming {
    Coming { valid: random.one_in(2), value: random.value(), stop: random.one_in(2) }
}

/// A station record, mostly in form.
pub fn record(random: &mut Random) -> Vec<u8> {
    let count = random.below(3);
    let mut record = vec![0; STATION_BYTES];
    for i in 0..count {
        record[4 * i..][..4].copy_from_slice(&random.value().to_le_bytes());
    }
    record[8] = count as u8;
    match random.below(30) {
        0 => record[8] = random.pick(&[3, 4, 255]),
        1 => record[8] = random.below(3) as u8,
        2 => {
            let at = random.below(STATION_BYTES);
            record[at] = random.draw() as u8;
        }
        3 if random.one_in(4) => record = random.bytes(STATION_BYTES),
        _ => {}
    }
    record
}

/// Bytes for a row: 0 to 10 records, sometimes not whole.
pub fn row(random: &mut Random) -> Vec<u8> {
    let length = match random.below(12) {
        0 => 0,
        1 => 8,
        2 => random.between(9, 10),
        _ => random.between(1, 8),
    };
    let mut bytes: Vec<u8> = (0..length).flat_map(|_| record(random)).collect();
    match random.below(20) {
        0 => bytes.truncate(bytes.len().saturating_sub(1)),
        1 => bytes.push(0),
        2 => {
            let more = random.below(STATION_BYTES);
            bytes.extend(vec![0; more]);
        }
        _ => {}
    }
    bytes
}
