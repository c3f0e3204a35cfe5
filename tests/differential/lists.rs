//! Calls one after another, each with what the call before left: lists that the token rule is held against, netlists on
//! trial, and rows of stations.
use crate::calls;
use crate::channel_bench::raw;
use crate::harness::{hex, Case, Group, Lent};
use crate::inputs::{self, Pattern, Random, Shape};
use crate::simulator::{node_place, Netlist, Strict, STATE_BYTES};

/// What is kept of a list of calls from the fresh state.
struct List {
    image: Vec<u8>,
    net: Netlist,
    state: Vec<u8>,
    /// What has arrived on each channel.
    arrived: Vec<Vec<i32>>,
    /// The word of each cycle.
    words: Vec<u64>,
    /// Each node's firings before each cycle, and after the last.
    firings: Vec<Vec<u32>>,
}

impl List {
    fn new(net: Netlist) -> List {
        let image = inputs::encode(&net);
        let mut state = vec![0; STATE_BYTES];
        raw::fresh(&image, &mut state);
        let firings = vec![vec![0; net.nodes.len()]];
        List { image, state, arrived: vec![Vec::new(); net.channels.len()], words: Vec::new(), firings, net }
    }

    /// A step with arrays that lack so many places. Answers the number.
    fn step(&mut self, word: u64, lacking: usize) -> u8 {
        let room = self.net.channels.len().saturating_sub(lacking);
        let (mut letters, mut values) = (vec![0; room], vec![0; self.net.channels.len()]);
        let number = raw::step(&self.image, &mut self.state, word, &mut letters, &mut values);
        if number == 0 {
            self.stepped(word, &letters, &values);
        }
        number
    }

    /// Keeps what a step has done that was accepted.
    fn stepped(&mut self, word: u64, letters: &[u8], values: &[i32]) {
        for (c, arrived) in self.arrived.iter_mut().enumerate().filter(|(c, _)| letters[*c] == b'T') {
            arrived.push(values[c]);
        }
        self.words.push(word);
        self.firings.push((0..self.net.nodes.len()).map(|i| number_at(&self.state, node_place(i) + 4)).collect());
    }

    /// A run on a copy of the state, and the steps whose letters its cycles have. Answers the run's number and steps,
    /// and whether the steps came to the same.
    fn run(&mut self, words: &[u64]) -> (u8, u32, bool) {
        let mut state = self.state.clone();
        let (number, steps) = raw::run(&self.image, &mut state, words);
        let refused = words.iter().map(|&word| self.step(word, 0)).enumerate().find(|&(_, number)| number != 0);
        let (stepped, refusal) = refused.unwrap_or((words.len(), 0));
        (number, steps, stepped == steps as usize && refusal == number && self.state == state)
    }

    /// Every node furthest behind that is stalled in none of R + 1 cycles fires in them.
    fn progresses(&self) -> bool {
        let window = self.net.longest() + 1;
        self.words.windows(window).enumerate().all(|(t, words)| {
            let (before, after) = (&self.firings[t], &self.firings[t + window]);
            let least = before.iter().min();
            let free = |i: usize| words.iter().all(|word| word & (1 << i) == 0);
            (0..before.len()).all(|i| Some(&before[i]) != least || !free(i) || after[i] > before[i])
        })
    }
}

/// The four bytes at a place, low byte first.
pub fn number_at(bytes: &[u8], at: usize) -> u32 {
    u32::from_le_bytes(bytes[at..at + 4].try_into().unwrap())
}

/// Steps and runs, some of them refused. The second simulator has a part only in the strict streams.
pub fn token_rule(group: &mut Group, random: &mut Random) {
    let net = inputs::accepted(random);
    let nodes = net.nodes.len();
    let mut list = List::new(net);
    let image = list.image.clone();
    let pattern = Pattern::of(random.below(8), random);
    let mut wrong = Vec::new();
    for call in 0..random.pick(&[5, 30, 60]) {
        let word = pattern.word(random, list.words.len(), nodes);
        let (answered, expected) = match random.below(10) {
            0 if nodes < 64 => (list.step(word | 1 << nodes, 0), 12),
            1 if !list.net.channels.is_empty() => (list.step(word, 1), 13),
            2 => {
                let words: Vec<u64> = (0..random.below(12)).map(|_| inputs::word(random, nodes)).collect();
                let made = words.iter().take_while(|&word| nodes == 64 || word >> nodes == 0).count();
                let (number, steps, same) = list.run(&words);
                if !same || steps as usize != made {
                    wrong.push(format!("call {call}, a run of {words:x?}, is not its {made} steps"));
                }
                (number, if made < words.len() { 12 } else { 0 })
            }
            _ => (list.step(word, 0), 0),
        };
        if answered != expected {
            wrong.push(format!("call {call} answers {answered} and not {expected}"));
        }
    }
    check_list(group.case(0, || hex(&image)), list, wrong);
}

fn check_list<D: Fn() -> String>(mut case: Case<'_, D>, list: List, wrong: Vec<String>) {
    case.differences = wrong;
    case.same("cycle count", number_at(&list.state, 0) as usize, list.words.len());
    case.that("a free node furthest behind fires within R + 1 cycles", list.progresses());
    let (nodes, channels) = (list.net.nodes.len(), &list.net.channels);
    let mut system = Strict::new(&list.net);
    for t in 0..=list.words.len() {
        let mut strict = vec![0; nodes];
        raw::strict(&list.image, t as u32, &mut strict);
        case.same(&format!("strict values of cycle {t}"), &strict, &system.values);
        for (c, channel) in channels.iter().enumerate() {
            if let Some(&token) = list.arrived[c].get(t) {
                case.same(&format!("token {t} of channel {c}"), token, strict[channel.from]);
            }
        }
        for i in (0..nodes).filter(|&i| number_at(&list.state, node_place(i) + 4) as usize == t) {
            let value = number_at(&list.state, node_place(i)) as i32;
            case.same(&format!("value of node {i} after {t} firings"), value, strict[i]);
        }
        system.cycle();
    }
    case.differences.truncate(5);
}

// ---- netlists on trial: the same words in steps and in a run, with refused calls, changed states and changed images
// in between

/// How many words a trial has.
const WORDS: usize = 60;

/// The last cycle count.
const LAST: u32 = 1_000_000;

/// The same state at another cycle count.
fn at_cycle(state: &Lent<u8>, cycles: u32) -> Lent<u8> {
    state.with(&cycles.to_le_bytes())
}

/// A netlist on trial.
struct Trial<'a> {
    group: &'a mut Group,
    random: &'a mut Random,
    net: Netlist,
    image: Vec<u8>,
}

impl Trial<'_> {
    /// A step on arrays of so many places. What was lent is handed back.
    fn step(&mut self, image: &[u8], state: &mut Lent<u8>, word: u64, room: (usize, usize)) -> (u8, Lent<u8>, Lent<i32>) {
        let mut letters = Lent::bytes(self.random, room.0);
        let mut values = Lent::values(self.random, room.1);
        let number = calls::step(self.group, image, state, word, &mut letters, &mut values);
        (number, letters, values)
    }

    /// Room that is enough, or for one of the arrays or both a place too little.
    fn room(&mut self, is_enough: bool) -> (usize, usize) {
        let c = self.net.channels.len();
        let short = c.saturating_sub(1);
        match (is_enough, self.random.below(3)) {
            (true, 0) => (c, c),
            (true, _) => (c + 4, c + 4),
            (false, 0) => (short, c + 4),
            (false, 1) => (c + 4, short),
            (false, _) => (short, short),
        }
    }

    fn word_above(&mut self) -> u64 {
        inputs::word_above(self.random, self.net.nodes.len())
    }

    /// The state with one field drawn anew.
    fn changed(&mut self, state: &Lent<u8>) -> Lent<u8> {
        let mut bytes = state.read().to_vec();
        inputs::redraw_field(&mut bytes, self.random, &self.net);
        state.with(&bytes)
    }

    /// A step with the causes of some of the numbers 22, 12 and 13.
    fn refused_step(&mut self, state: &Lent<u8>) {
        let causes = self.random.below(8);
        let mut state = if causes & 1 == 0 { state.clone() } else { at_cycle(state, LAST) };
        let word = if causes & 2 == 0 { 0 } else { self.word_above() };
        let room = self.room(causes & 4 == 0);
        self.step(&self.image.clone(), &mut state, word, room);
    }

    /// A call that leads nowhere: refused, of a changed state, or of a changed image; or none.
    fn disturb(&mut self, state: &Lent<u8>, word: u64) {
        let room = self.room(true);
        match self.random.below(4) {
            0 => self.refused_step(state),
            1 => {
                let mut changed = self.changed(state);
                self.step(&self.image.clone(), &mut changed, word, room);
            }
            2 => {
                let image = inputs::changed_image(self.random, &self.net);
                self.step(&image, &mut state.clone(), word, room);
            }
            _ => {}
        }
    }

    /// Steps from the fresh state, held against the token rule too. Answers the last state.
    fn steps(&mut self, fresh: &Lent<u8>, words: &[u64]) -> Lent<u8> {
        let mut state = fresh.clone();
        let mut list = List::new(self.net.clone());
        for &word in words {
            let room = self.room(true);
            let (_, letters, values) = self.step(&self.image.clone(), &mut state, word, room);
            list.state = state.read().to_vec();
            list.stepped(word, letters.read(), values.read());
            self.disturb(&state, word);
        }
        let image = hex(&self.image);
        check_list(self.group.case(0, || image.clone()), list, Vec::new());
        state
    }

    fn run(&mut self, state: &Lent<u8>, words: &[u64]) -> Lent<u8> {
        let mut state = state.clone();
        calls::run(self.group, &self.image, &mut state, words);
        state
    }

    /// Runs from the fresh state, from the last, from a changed one and from the last cycles, and one with a word that
    /// is refused.
    fn runs(&mut self, fresh: &Lent<u8>, last: &Lent<u8>, words: &[u64]) {
        let ran = self.run(fresh, words);
        let image = hex(&self.image);
        self.group.case(0, || image.clone()).same_lent("state after a run and after its steps", &ran, last);
        let some = self.random.below(WORDS + 1);
        self.run(last, &words[..some]);
        let changed = self.changed(fresh);
        self.run(&changed, words);
        let late = at_cycle(fresh, LAST - 2);
        let few = self.random.below(4);
        self.run(&late, &words[..few]);
        self.run(&late, words);
        let mut refused = words.to_vec();
        refused[self.random.below(WORDS)] = self.word_above();
        self.run(fresh, &refused);
    }

    fn strict(&mut self, image: &[u8], cycle: u32, room: usize) {
        let mut values = Lent::values(self.random, room);
        calls::strict(self.group, image, cycle, &mut values);
    }

    fn stricts(&mut self) {
        let (image, nodes) = (self.image.clone(), self.net.nodes.len());
        let cycle = self.random.below(200) as u32;
        for (cycle, room) in [(0, 100), (1, nodes), (cycle, 100), (cycle, nodes - 1), (LAST + 1, nodes - 1)] {
            self.strict(&image, cycle, room);
        }
    }

    /// Every call on an image in which something was changed.
    fn changed_image(&mut self, state: &Lent<u8>, words: &[u64]) {
        let image = inputs::changed_image(self.random, &self.net);
        calls::judge(self.group, &image);
        calls::fresh(self.group, &image, &mut state.clone());
        let room = self.room(true);
        self.step(&image, &mut state.clone(), 0, room);
        calls::run(self.group, &image, &mut state.clone(), words);
        self.strict(&image, 9, 100);
    }
}

/// A netlist of each shape in turn, with the stalls of each pattern in turn.
pub fn trial(group: &mut Group, random: &mut Random) {
    let number = group.begun();
    let net = inputs::of_shape(random, Shape::ALL[number % Shape::ALL.len()]);
    let pattern = Pattern::of(number / Shape::ALL.len() % 8, random);
    let words: Vec<u64> = (0..WORDS).map(|t| pattern.word(random, t, net.nodes.len())).collect();
    let mut fresh = Lent::bytes(random, STATE_BYTES);
    let image = inputs::encode(&net);
    calls::fresh(group, &image, &mut fresh);
    let mut trial = Trial { group, random, net, image };
    let last = trial.steps(&fresh, &words);
    trial.runs(&fresh, &last, &words);
    trial.stricts();
    for _ in 0..4 {
        trial.changed_image(&last, &words);
    }
}

/// A row of 0 to 9 records, and a station, through forty cycles.
pub fn bench_cycles(group: &mut Group, random: &mut Random) {
    let records = random.below(10);
    let row: Vec<u8> = (0..records).flat_map(|_| inputs::record(random)).collect();
    let mut row = Lent::of(&row, 7);
    let mut station = Lent::of(&inputs::record(random), 7);
    for _ in 0..40 {
        let coming = inputs::coming(random);
        calls::row(group, &mut row, coming);
        calls::station(group, &mut station, coming);
    }
}
