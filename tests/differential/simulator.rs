//! A second simulator, written from the rules alone: what the library's answers are compared with. It is made to be
//! read, not to be fast. Every place that holds tokens is a queue of its own, and a state of bytes is taken apart and
//! put together only at the border.
use crate::channel_bench::{NODES_PLACE, NODE_BYTES, PENDING_PLACE, QUEUES_PLACE, QUEUE_BYTES, STATIONS, STATIONS_PLACE};
pub use crate::channel_bench::{STATE_BYTES, STATION_BYTES};
use std::collections::VecDeque;

const MOST_CYCLES: u32 = 1_000_000;

/// Where a node stands among the bytes of a state; its firings 4 bytes behind it.
pub fn node_place(node: usize) -> usize {
    NODES_PLACE + NODE_BYTES * node
}

/// Where the pending byte of a channel stands.
pub fn pending_place(channel: usize) -> usize {
    PENDING_PLACE + channel
}

/// Where the record of a channel's station stands.
pub fn station_place(channel: usize, station: usize) -> usize {
    STATIONS_PLACE + STATION_BYTES * (STATIONS * channel + station)
}

/// Where the queue of a channel stands.
pub fn queue_place(channel: usize) -> usize {
    QUEUES_PLACE + QUEUE_BYTES * channel
}

/// A number that refuses, or what was asked for.
pub type Verdict<T> = Result<T, u8>;

#[derive(Clone, Debug)]
pub struct Netlist {
    pub nodes: Vec<Core>,
    pub channels: Vec<Channel>,
}

#[derive(Clone, Debug)]
pub struct Core {
    pub kind: u8,
    pub parameter: i32,
}

#[derive(Clone, Debug)]
pub struct Channel {
    pub from: usize,
    pub to: usize,
    pub port: usize,
    pub stations: usize,
    pub depth: usize,
}

/// How many inputs a kind has; none if it is no kind.
pub fn inputs(kind: u8) -> Option<usize> {
    Some(match kind {
        1 => 0,
        2 | 3 | 4 | 5 => 1,
        6 | 7 | 8 => 2,
        9 => 3,
        _ => return None,
    })
}

/// The next value, worked out in 64 bits and wrapped at the end.
pub fn next_value(kind: u8, s: i32, ports: &[i32]) -> i32 {
    let port = |p: usize| i64::from(ports[p]);
    let exact = match kind {
        1 => i64::from(s) + 1,
        2 => port(0),
        3 => i64::from(s) + port(0),
        4 => -port(0),
        5 => port(0).div_euclid(2),
        6 => port(0) + port(1),
        7 => port(0) - port(1),
        8 => port(0).max(port(1)),
        9 => port(if port(0) < 0 { 1 } else { 2 }),
        _ => unreachable!("the judge refuses other kinds"),
    };
    ((exact + (1 << 31)).rem_euclid(1 << 32) - (1 << 31)) as i32
}

/// Judges an image: the netlist, or the first number that has a cause.
pub fn judge(image: &[u8]) -> Verdict<Netlist> {
    if image.len() < 2 {
        return Err(1);
    }
    let (n, c) = (usize::from(image[0]), usize::from(image[1]));
    if n == 0 || n > 64 || c > 96 {
        return Err(2);
    }
    if image.len() != 2 + 5 * n + 5 * c {
        return Err(3);
    }
    let net = read_netlist(image, n, c);
    let causes: [(u8, fn(&Netlist) -> bool); 8] = [
        (4, |net| net.nodes.iter().any(|node| inputs(node.kind).is_none())),
        (5, |net| net.channels.iter().any(|ch| ch.from.max(ch.to) >= net.nodes.len())),
        (6, |net| net.channels.iter().any(|ch| Some(ch.port) >= inputs(net.nodes[ch.to].kind))),
        (7, |net| ports(net).iter().any(|&(node, port)| net.feeders(node, port) > 1)),
        (8, |net| ports(net).iter().any(|&(node, port)| net.feeders(node, port) == 0)),
        (9, |net| net.channels.iter().any(|ch| ch.stations > 8)),
        (10, |net| net.channels.iter().any(|ch| ch.depth == 0 || ch.depth > 8)),
        (11, |net| net.channels.iter().map(|ch| ch.stations).sum::<usize>() > 256),
    ];
    match causes.iter().find(|(_, cause)| cause(&net)) {
        Some((number, _)) => Err(*number),
        None => Ok(net),
    }
}

fn read_netlist(image: &[u8], n: usize, c: usize) -> Netlist {
    let parameters = 2 + n;
    let wires = parameters + 4 * n;
    let depths = wires + 3 * c;
    let byte = |at: usize| usize::from(image[at]);
    Netlist {
        nodes: (0..n).map(|i| Core { kind: image[2 + i], parameter: signed(image, parameters + 4 * i) }).collect(),
        channels: (0..c)
            .map(|i| Channel {
                from: byte(wires + 3 * i),
                to: byte(wires + 3 * i + 1),
                port: byte(wires + 3 * i + 2),
                stations: byte(depths + 2 * i),
                depth: byte(depths + 2 * i + 1),
            })
            .collect(),
    }
}

/// All input ports, each as node and port.
fn ports(net: &Netlist) -> Vec<(usize, usize)> {
    let of = |(i, node): (usize, &Core)| (0..inputs(node.kind).unwrap_or(0)).map(move |port| (i, port));
    net.nodes.iter().enumerate().flat_map(of).collect()
}

impl Netlist {
    fn feeders(&self, node: usize, port: usize) -> usize {
        self.channels.iter().filter(|ch| (ch.to, ch.port) == (node, port)).count()
    }

    /// The largest station count of a channel.
    pub fn longest(&self) -> usize {
        self.channels.iter().map(|ch| ch.stations).max().unwrap_or(0)
    }

    /// Whether a stall word sets a bit at or above N.
    fn sets_above(&self, word: u64) -> bool {
        (self.nodes.len()..64).any(|bit| word & (1 << bit) != 0)
    }
}

/// What a link reads: whether it is valid, with its token, and whether it is stopped.
#[derive(Clone, Copy, Debug)]
struct Link {
    shows: Option<i32>,
    stopped: bool,
}

impl Link {
    fn passes(&self) -> Option<i32> {
        if self.stopped {
            None
        } else {
            self.shows
        }
    }

    fn letter(&self) -> (u8, i32) {
        match self {
            Link { shows: Some(value), stopped: false } => (b'T', *value),
            Link { shows: Some(value), stopped: true } => (b'R', *value),
            Link { shows: None, stopped: false } => (b'I', 0),
            Link { shows: None, stopped: true } => (b'S', 0),
        }
    }
}

/// The links of a row of stations, from the token offered to it and the stop below it: one more than stations.
fn links(offered: Option<i32>, stations: &[VecDeque<i32>], stop: bool) -> Vec<Link> {
    let last = stations.len();
    let shows = |j: usize| if j == 0 { offered } else { stations[j - 1].front().copied() };
    let stopped = |j: usize| if j < last { stations[j].len() == 2 } else { stop };
    (0..=last).map(|j| Link { shows: shows(j), stopped: stopped(j) }).collect()
}

/// Each token that passed a link leaves the station above it and enters the one below.
fn move_on(stations: &mut [VecDeque<i32>], links: &[Link]) {
    for (j, station) in stations.iter_mut().enumerate() {
        if links[j + 1].passes().is_some() {
            station.pop_front();
        }
        station.extend(links[j].passes());
    }
}

#[derive(Clone, Debug)]
pub struct State {
    pub cycle: u32,
    pub shells: Vec<Shell>,
    pub wires: Vec<Wire>,
}

/// A node: the value that it shows, and how often it has fired.
#[derive(Clone, Debug)]
pub struct Shell {
    pub value: i32,
    pub firings: u32,
}

/// A channel: whether the from node's token is pending on it, its stations and its queue.
#[derive(Clone, Debug)]
pub struct Wire {
    pub pending: bool,
    pub stations: Vec<VecDeque<i32>>,
    pub queue: VecDeque<i32>,
}

impl State {
    pub fn fresh(net: &Netlist) -> State {
        State {
            cycle: 0,
            shells: net.nodes.iter().map(|node| Shell { value: node.parameter, firings: 0 }).collect(),
            wires: net
                .channels
                .iter()
                .map(|ch| Wire { pending: true, stations: vec![VecDeque::new(); ch.stations], queue: VecDeque::new() })
                .collect(),
        }
    }

    fn links(&self, net: &Netlist, c: usize) -> Vec<Link> {
        let (wire, channel) = (&self.wires[c], &net.channels[c]);
        let offered = wire.pending.then(|| self.shells[channel.from].value);
        links(offered, &wire.stations, wire.queue.len() == channel.depth)
    }

    /// One cycle with a word that is not refused. Answers letter and value of each channel.
    pub fn cycle(&mut self, net: &Netlist, word: u64) -> Vec<(u8, i32)> {
        let links: Vec<Vec<Link>> = (0..net.channels.len()).map(|c| self.links(net, c)).collect();
        let mut fires: Vec<bool> = (0..net.nodes.len()).map(|i| word & (1 << i) == 0).collect();
        for (c, channel) in net.channels.iter().enumerate() {
            let (first, last) = (links[c][0], links[c][channel.stations]);
            if self.wires[c].queue.is_empty() && last.shows.is_none() {
                fires[channel.to] = false;
            }
            if first.shows.is_some() && first.stopped {
                fires[channel.from] = false;
            }
        }

        for (wire, links) in self.wires.iter_mut().zip(&links) {
            if links[0].passes().is_some() {
                wire.pending = false;
            }
            move_on(&mut wire.stations, links);
            wire.queue.extend(links[wire.stations.len()].passes());
        }

        let mut taken = vec![[0; 3]; net.nodes.len()];
        for (wire, channel) in self.wires.iter_mut().zip(&net.channels) {
            if fires[channel.to] {
                taken[channel.to][channel.port] = wire.queue.pop_front().expect("the input was ready");
            }
            if fires[channel.from] {
                wire.pending = true;
            }
        }
        for (i, shell) in self.shells.iter_mut().enumerate().filter(|(i, _)| fires[*i]) {
            shell.value = next_value(net.nodes[i].kind, shell.value, &taken[i]);
            shell.firings += 1;
        }
        self.cycle += 1;
        net.channels.iter().zip(&links).map(|(channel, links)| links[channel.stations].letter()).collect()
    }

    /// Takes bytes apart, if the first of them are a state that fits the netlist; 21 if not.
    pub fn read(net: &Netlist, bytes: &[u8]) -> Verdict<State> {
        let bytes = bytes.get(..STATE_BYTES).ok_or(21)?;
        let mut state = State::fresh(net);
        state.cycle = signed(bytes, 0) as u32;
        for (i, shell) in state.shells.iter_mut().enumerate() {
            let (value, firings) = (signed(bytes, node_place(i)), signed(bytes, node_place(i) + 4) as u32);
            *shell = Shell { value, firings };
        }
        for (c, wire) in state.wires.iter_mut().enumerate() {
            wire.pending = match bytes[pending_place(c)] {
                0 => false,
                1 => true,
                _ => return Err(21),
            };
            for (j, station) in wire.stations.iter_mut().enumerate() {
                *station = held(&bytes[station_place(c, j)..][..STATION_BYTES], 2).ok_or(21)?;
            }
            wire.queue = held(&bytes[queue_place(c)..][..QUEUE_BYTES], net.channels[c].depth).ok_or(21)?;
        }
        // What reading has not looked at is written as 0.
        if state.bytes() == bytes && state.counts_fit(net) {
            Ok(state)
        } else {
            Err(21)
        }
    }

    fn counts_fit(&self, net: &Netlist) -> bool {
        let firings = |i: usize| i64::from(self.shells[i].firings);
        let balanced = |(wire, channel): (&Wire, &Channel)| {
            let held: usize = wire.stations.iter().map(VecDeque::len).sum();
            let tokens = usize::from(wire.pending) + held + wire.queue.len();
            tokens as i64 == firings(channel.from) + 1 - firings(channel.to)
        };
        self.cycle <= MOST_CYCLES
            && self.shells.iter().all(|shell| shell.firings <= self.cycle)
            && self.wires.iter().zip(&net.channels).all(balanced)
    }

    /// The state as bytes.
    pub fn bytes(&self) -> Vec<u8> {
        let mut bytes = vec![0; STATE_BYTES];
        bytes[..4].copy_from_slice(&self.cycle.to_le_bytes());
        for (i, shell) in self.shells.iter().enumerate() {
            bytes[node_place(i)..][..4].copy_from_slice(&shell.value.to_le_bytes());
            bytes[node_place(i) + 4..][..4].copy_from_slice(&shell.firings.to_le_bytes());
        }
        for (c, wire) in self.wires.iter().enumerate() {
            bytes[pending_place(c)] = u8::from(wire.pending);
            for (j, station) in wire.stations.iter().enumerate() {
                put(station, &mut bytes[station_place(c, j)..][..STATION_BYTES]);
            }
            put(&wire.queue, &mut bytes[queue_place(c)..][..QUEUE_BYTES]);
        }
        bytes
    }

    /// What refuses a word: 22, then 12.
    fn refusal(&self, net: &Netlist, word: u64) -> Verdict<()> {
        if self.cycle == MOST_CYCLES {
            Err(22)
        } else if net.sets_above(word) {
            Err(12)
        } else {
            Ok(())
        }
    }
}

/// The tokens of a record: places of 4 bytes and then how many hold a token. None if these are more than `most` or a
/// place that holds none is not 0.
fn held(record: &[u8], most: usize) -> Option<VecDeque<i32>> {
    let (&count, places) = record.split_last()?;
    let (count, places) = (usize::from(count), places.len() / 4);
    let mut tokens: VecDeque<i32> = (0..places).map(|i| signed(record, 4 * i)).collect();
    if count > most || tokens.range(count..).any(|&token| token != 0) {
        return None;
    }
    tokens.truncate(count);
    Some(tokens)
}

fn put(tokens: &VecDeque<i32>, record: &mut [u8]) {
    record.fill(0);
    for (i, token) in tokens.iter().enumerate() {
        record[4 * i..][..4].copy_from_slice(&token.to_le_bytes());
    }
    *record.last_mut().expect("a record has a count") = tokens.len() as u8;
}

fn signed(bytes: &[u8], at: usize) -> i32 {
    i32::from_le_bytes(bytes[at..at + 4].try_into().expect("four bytes"))
}

/// What a step answers if it is accepted: the state, the letters and the values.
pub struct Stepped {
    pub state: Vec<u8>,
    pub letters: Vec<u8>,
    pub values: Vec<i32>,
}

/// A step, with the room of both lent arrays.
pub fn step(image: &[u8], state: &[u8], word: u64, letters: usize, values: usize) -> Verdict<Stepped> {
    let net = judge(image)?;
    let mut state = State::read(&net, state)?;
    state.refusal(&net, word)?;
    if letters < net.channels.len() || values < net.channels.len() {
        return Err(13);
    }
    let (letters, values) = state.cycle(&net, word).into_iter().unzip();
    Ok(Stepped { state: state.bytes(), letters, values })
}

/// What a run answers: the number, the steps done, and the state after them if the one handed in was taken.
pub struct Ran {
    pub number: u8,
    pub steps: u32,
    pub state: Option<Vec<u8>>,
}

pub fn run(image: &[u8], state: &[u8], words: &[u64]) -> Ran {
    let opened = judge(image).and_then(|net| State::read(&net, state).map(|state| (net, state)));
    let (net, mut state) = match opened {
        Ok(opened) => opened,
        Err(number) => return Ran { number, steps: 0, state: None },
    };
    let mut steps = 0;
    for &word in words {
        if let Err(number) = state.refusal(&net, word) {
            return Ran { number, steps, state: Some(state.bytes()) };
        }
        state.cycle(&net, word);
        steps += 1;
    }
    Ran { number: 0, steps, state: Some(state.bytes()) }
}

/// The strict system, cycle by cycle.
pub struct Strict {
    kinds: Vec<u8>,
    feeders: Vec<Vec<usize>>,
    pub values: Vec<i32>,
}

impl Strict {
    pub fn new(net: &Netlist) -> Strict {
        let mut feeders: Vec<Vec<usize>> = net.nodes.iter().map(|n| vec![0; inputs(n.kind).unwrap_or(0)]).collect();
        for channel in &net.channels {
            feeders[channel.to][channel.port] = channel.from;
        }
        Strict {
            kinds: net.nodes.iter().map(|node| node.kind).collect(),
            feeders,
            values: net.nodes.iter().map(|node| node.parameter).collect(),
        }
    }

    pub fn cycle(&mut self) {
        let mut ports = [0; 3];
        let next = (0..self.kinds.len()).map(|i| {
            for (port, &from) in ports.iter_mut().zip(&self.feeders[i]) {
                *port = self.values[from];
            }
            next_value(self.kinds[i], self.values[i], &ports)
        });
        self.values = next.collect();
    }
}

/// The strict run, with the room of the lent array.
pub fn strict(image: &[u8], cycle: u32, room: usize) -> Verdict<Vec<i32>> {
    let net = judge(image)?;
    if cycle > MOST_CYCLES {
        return Err(14);
    }
    if room < net.nodes.len() {
        return Err(13);
    }
    let mut system = Strict::new(&net);
    for _ in 0..cycle {
        system.cycle();
    }
    Ok(system.values)
}

/// A fresh state, with the room of the lent array.
pub fn fresh(image: &[u8], room: usize) -> Verdict<Vec<u8>> {
    let net = judge(image)?;
    if room < STATE_BYTES {
        return Err(13);
    }
    Ok(State::fresh(&net).bytes())
}

pub fn header_line(room: usize) -> Verdict<String> {
    fitting("cycle states\n".to_string(), room)
}

/// A cycle's line, and the state after the cycle.
pub fn cycle_line(image: &[u8], state: &[u8], word: u64, room: usize) -> Verdict<(String, Vec<u8>)> {
    let net = judge(image)?;
    let mut state = State::read(&net, state)?;
    state.refusal(&net, word)?;
    let number = state.cycle.to_string();
    let shown = state.cycle(&net, word).into_iter().map(|(letter, value)| match letter {
        b'T' | b'R' => format!("{}{value}", char::from(letter)),
        _ => char::from(letter).to_string(),
    });
    let fields: Vec<String> = std::iter::once(number).chain(shown).collect();
    Ok((fitting(fields.join(" ") + "\n", room)?, state.bytes()))
}

pub fn closing_line(image: &[u8], state: &[u8], room: usize) -> Verdict<String> {
    let net = judge(image)?;
    let state = State::read(&net, state)?;
    let counts: String = state.shells.iter().map(|shell| format!(" {}", shell.firings)).collect();
    fitting(format!("fired{counts}\n"), room)
}

fn fitting(line: String, room: usize) -> Verdict<String> {
    if line.len() <= room {
        Ok(line)
    } else {
        Err(13)
    }
}

/// What a bench answers if it is accepted: the records, the letter and the value of the link below, and whether the
/// incoming token was taken.
#[derive(Debug)]
pub struct Benched {
    pub records: Vec<u8>,
    pub letter: u8,
    pub value: i32,
    pub taken: bool,
}

/// The station bench. A record of another length is no record: 21.
pub fn station(record: &[u8], token: Option<i32>, stop: bool) -> Verdict<Benched> {
    if record.len() != STATION_BYTES {
        return Err(21);
    }
    row(record, token, stop)
}

/// The row bench. A record that is not whole counts for 15, and is 21.
pub fn row(records: &[u8], token: Option<i32>, stop: bool) -> Verdict<Benched> {
    let whole = records.chunks_exact(STATION_BYTES);
    if records.is_empty() || records.len() > 8 * STATION_BYTES {
        return Err(15);
    }
    if !whole.remainder().is_empty() {
        return Err(21);
    }
    let mut stations = whole.map(|record| held(record, 2).ok_or(21)).collect::<Verdict<Vec<_>>>()?;
    let links = links(token, &stations, stop);
    move_on(&mut stations, &links);
    let mut records = records.to_vec();
    for (station, record) in stations.iter().zip(records.chunks_exact_mut(STATION_BYTES)) {
        put(station, record);
    }
    let (letter, value) = links[stations.len()].letter();
    Ok(Benched { records, letter, value, taken: links[0].passes().is_some() })
}
