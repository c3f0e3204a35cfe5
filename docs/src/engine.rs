//! The cycle engine as one would write it in ordinary Rust, to time ours against: in place, on structs. `step` and
//! `run` work on a state of bytes, as the C boundary has it, and test what ours test.
use crate::channel_bench::{NODES_PLACE, PENDING_PLACE, QUEUES_PLACE, STATIONS_PLACE};
use crate::channel_bench::{NODE_BYTES, QUEUE_BYTES, STATE_BYTES, STATION_BYTES};
use crate::judge::judge;
use crate::row::{self, Station};

const MOST_CYCLES: u32 = 1_000_000;

pub struct Channel {
    pub from: usize,
    pub to: usize,
    pub port: usize,
    pub stations: usize,
    pub depth: u8,
}

pub struct Netlist {
    pub kinds: Vec<u8>,
    pub parameters: Vec<i32>,
    pub channels: Vec<Channel>,
}

#[derive(Clone, Copy, Default, PartialEq)]
pub struct Node {
    pub value: i32,
    pub firings: u32,
}

#[derive(Clone, Copy, Default, PartialEq)]
struct Queue {
    tokens: [i32; 8],
    count: u8,
}

/// Station j of channel c, counted from 0, stands at 8 * c + j.
#[derive(Clone)]
pub struct State {
    pub cycles: u32,
    pub nodes: [Node; 64],
    pending: [u8; 96],
    stations: [Station; 768],
    queues: [Queue; 96],
}

impl Netlist {
    /// Takes an accepted image apart.
    pub fn decode(image: &[u8]) -> Self {
        let (n, c) = (image[0] as usize, image[1] as usize);
        let (kinds, rest) = image[2..].split_at(n);
        let (parameters, rest) = rest.split_at(4 * n);
        let (wires, depths) = rest.split_at(3 * c);
        let channels = wires.chunks_exact(3).zip(depths.chunks_exact(2)).map(|(wire, depth)| Channel {
            from: wire[0] as usize,
            to: wire[1] as usize,
            port: wire[2] as usize,
            stations: depth[0] as usize,
            depth: depth[1],
        });
        Netlist {
            kinds: kinds.to_vec(),
            parameters: parameters.chunks_exact(4).map(|p| row::four(p, 0)).collect(),
            channels: channels.collect(),
        }
    }
}

/// The next value of a node.
pub fn next_value(kind: u8, s: i32, [a, b, c]: [i32; 3]) -> i32 {
    match kind {
        1 => s.wrapping_add(1),
        2 => a,
        3 => s.wrapping_add(a),
        4 => a.wrapping_neg(),
        5 => a >> 1,
        6 => a.wrapping_add(b),
        7 => a.wrapping_sub(b),
        8 => a.max(b),
        9 if a < 0 => b,
        9 => c,
        _ => 0,
    }
}

impl Queue {
    fn read(bytes: &[u8; QUEUE_BYTES]) -> Self {
        Queue { tokens: std::array::from_fn(|i| row::four(bytes, 4 * i)), count: bytes[32] }
    }

    fn write(&self, bytes: &mut [u8]) {
        for (place, token) in bytes.chunks_exact_mut(4).zip(self.tokens) {
            place.copy_from_slice(&token.to_le_bytes());
        }
        bytes[32] = self.count;
    }

    fn fits(&self, depth: u8) -> bool {
        self.count <= depth && self.tokens[self.count as usize..].iter().all(|&token| token == 0)
    }

    fn full(&self, depth: u8) -> bool {
        self.count >= depth
    }

    fn oldest(&self) -> Option<i32> {
        (self.count > 0).then_some(self.tokens[0])
    }

    fn push(&mut self, token: i32) {
        self.tokens[self.count as usize] = token;
        self.count += 1;
    }

    fn pop(&mut self) {
        self.tokens.copy_within(1.., 0);
        self.tokens[7] = 0;
        self.count -= 1;
    }
}

impl State {
    fn zeros() -> Self {
        State {
            cycles: 0,
            nodes: [Node::default(); 64],
            pending: [0; 96],
            stations: [Station::default(); 768],
            queues: [Queue::default(); 96],
        }
    }

    pub fn fresh(net: &Netlist) -> Self {
        let mut state = State::zeros();
        for (node, &value) in state.nodes.iter_mut().zip(&net.parameters) {
            node.value = value;
        }
        state.pending[..net.channels.len()].fill(1);
        state
    }

    /// Reads a state of `STATE_BYTES`.
    pub fn read(bytes: &[u8]) -> Self {
        let mut state = State::zeros();
        state.cycles = row::four(bytes, 0) as u32;
        for (node, b) in state.nodes.iter_mut().zip(bytes[NODES_PLACE..PENDING_PLACE].as_chunks::<NODE_BYTES>().0) {
            *node = Node { value: row::four(b, 0), firings: row::four(b, 4) as u32 };
        }
        state.pending.copy_from_slice(&bytes[PENDING_PLACE..STATIONS_PLACE]);
        for (station, b) in state.stations.iter_mut().zip(bytes[STATIONS_PLACE..QUEUES_PLACE].as_chunks().0) {
            *station = Station::read(b);
        }
        for (queue, b) in state.queues.iter_mut().zip(bytes[QUEUES_PLACE..].as_chunks().0) {
            *queue = Queue::read(b);
        }
        state
    }

    /// Writes a state of `STATE_BYTES`.
    pub fn write(&self, bytes: &mut [u8]) {
        bytes[..NODES_PLACE].copy_from_slice(&self.cycles.to_le_bytes());
        for (node, b) in self.nodes.iter().zip(bytes[NODES_PLACE..PENDING_PLACE].chunks_exact_mut(NODE_BYTES)) {
            b[..4].copy_from_slice(&node.value.to_le_bytes());
            b[4..].copy_from_slice(&node.firings.to_le_bytes());
        }
        bytes[PENDING_PLACE..STATIONS_PLACE].copy_from_slice(&self.pending);
        for (station, b) in self.stations.iter().zip(bytes[STATIONS_PLACE..QUEUES_PLACE].chunks_exact_mut(STATION_BYTES)) {
            station.write(b);
        }
        for (queue, b) in self.queues.iter().zip(bytes[QUEUES_PLACE..].chunks_exact_mut(QUEUE_BYTES)) {
            queue.write(b);
        }
    }

    /// Whether the state fits the netlist: number 21.
    pub fn fits(&self, net: &Netlist) -> bool {
        let (n, c) = (net.kinds.len(), net.channels.len());
        self.cycles <= MOST_CYCLES
            && self.nodes[..n].iter().all(|node| node.firings <= self.cycles)
            && self.nodes[n..].iter().all(|node| *node == Node::default())
            && self.pending[..c].iter().all(|&pending| pending <= 1)
            && self.pending[c..].iter().all(|&pending| pending == 0)
            && self.stations[8 * c..].iter().all(|station| *station == Station::default())
            && self.queues[c..].iter().all(|queue| *queue == Queue::default())
            && net.channels.iter().enumerate().all(|(c, channel)| self.channel_fits(c, channel))
    }

    fn channel_fits(&self, c: usize, channel: &Channel) -> bool {
        let (row, unused) = self.stations[8 * c..8 * c + 8].split_at(channel.stations);
        let queue = &self.queues[c];
        let held: u32 = row.iter().map(|station| station.count as u32).sum();
        let tokens = self.pending[c] as u32 + held + queue.count as u32;
        row.iter().all(Station::fits)
            && unused.iter().all(|station| *station == Station::default())
            && queue.fits(channel.depth)
            && tokens + self.nodes[channel.to].firings == self.nodes[channel.from].firings + 1
    }

    /// What link r of a channel shows.
    fn arriving(&self, c: usize, channel: &Channel) -> Option<i32> {
        match self.stations[8 * c..8 * c + channel.stations].last() {
            Some(station) => station.shown(),
            None => (self.pending[c] == 1).then_some(self.nodes[channel.from].value),
        }
    }

    /// The letters and values of the cycle to come.
    pub fn show(&self, net: &Netlist, letters: &mut [u8], values: &mut [i32]) {
        let places = letters.iter_mut().zip(values);
        for ((c, channel), (letter, value)) in net.channels.iter().enumerate().zip(places) {
            let token = self.arriving(c, channel);
            *letter = row::letter(token, self.queues[c].full(channel.depth));
            *value = token.unwrap_or(0);
        }
    }

    pub fn cycle(&mut self, net: &Netlist, word: u64) {
        // What each input has to take, and which nodes do not fire.
        let mut held = word;
        let mut inputs = [[0; 3]; 64];
        for (c, channel) in net.channels.iter().enumerate() {
            let queue = &self.queues[c];
            let stop = match self.stations[8 * c..8 * c + channel.stations].first() {
                Some(station) => station.full(),
                None => queue.full(channel.depth),
            };
            match queue.oldest().or(self.arriving(c, channel)) {
                Some(token) => inputs[channel.to][channel.port] = token,
                None => held |= 1 << channel.to,
            }
            if self.pending[c] == 1 && stop {
                held |= 1 << channel.from;
            }
        }
        let fires = |i: usize| held >> i & 1 == 0;

        // Tokens move on, from the values that the nodes still show.
        for (c, channel) in net.channels.iter().enumerate() {
            let row = &mut self.stations[8 * c..8 * c + channel.stations];
            let queue = &mut self.queues[c];
            let pending = self.pending[c] == 1;
            let full = queue.full(channel.depth);
            let stop = row.first().map_or(full, Station::full);
            let link = row::cycle(row, pending.then_some(self.nodes[channel.from].value), full);
            // With an empty queue the arriving token is used at once.
            let taken = fires(channel.to);
            let bypass = taken && queue.count == 0;
            if taken && !bypass {
                queue.pop();
            }
            if let Some(token) = link.filter(|_| !full && !bypass) {
                queue.push(token);
            }
            self.pending[c] = (fires(channel.from) || pending && stop) as u8;
        }

        for (i, &kind) in net.kinds.iter().enumerate() {
            if fires(i) {
                let node = &mut self.nodes[i];
                node.value = next_value(kind, node.value, inputs[i]);
                node.firings += 1;
            }
        }
        self.cycles += 1;
    }
}

/// The netlist and the state of bytes, or the number that refuses them: 1 to 11 or 21.
pub fn open(image: &[u8], bytes: &[u8]) -> Result<(Netlist, State), u8> {
    let number = judge(image);
    if number != 0 {
        return Err(number);
    }
    if bytes.len() != STATE_BYTES {
        return Err(21);
    }
    let net = Netlist::decode(image);
    let state = State::read(bytes);
    if state.fits(&net) {
        Ok((net, state))
    } else {
        Err(21)
    }
}

/// What refuses a word: 22, 12 or nothing.
fn refusal(net: &Netlist, state: &State, word: u64) -> u8 {
    if state.cycles == MOST_CYCLES {
        22
    } else if net.kinds.len() < 64 && word >> net.kinds.len() != 0 {
        12
    } else {
        0
    }
}

/// One cycle on a state of bytes. Answers the number.
pub fn step(image: &[u8], bytes: &mut [u8], word: u64, letters: &mut [u8], values: &mut [i32]) -> u8 {
    let (net, mut state) = match open(image, bytes) {
        Ok(opened) => opened,
        Err(number) => return number,
    };
    let number = refusal(&net, &state, word);
    if number != 0 {
        return number;
    }
    if letters.len().min(values.len()) < net.channels.len() {
        return 13;
    }
    state.show(&net, letters, values);
    state.cycle(&net, word);
    state.write(bytes);
    0
}

/// A run on a state of bytes. Answers the number and the steps.
pub fn run(image: &[u8], bytes: &mut [u8], words: &[u64]) -> (u8, u32) {
    let (net, mut state) = match open(image, bytes) {
        Ok(opened) => opened,
        Err(number) => return (number, 0),
    };
    let mut steps = 0;
    let mut number = 0;
    for &word in words {
        number = refusal(&net, &state, word);
        if number != 0 {
            break;
        }
        state.cycle(&net, word);
        steps += 1;
    }
    state.write(bytes);
    (number, steps)
}
