//! Channel Bench from Rust: safe functions over those of `include/channel_bench.h`.
//!
//! The functions of this module take and return Rust's own types. Those of [`raw`] mirror the header one to one, on
//! slices of any length. Link with the folder of `libcapi.a`, as `-L out`; it is the archive that `rt lib` in crates/capi_c makes.
#![allow(dead_code)] // No program uses all of it.

use std::fmt;

/// The edition of the header that this module is written after. [`edition`] answers the library's.
pub const EDITION: u32 = 1;

/// The most nodes that an image may have.
pub const NODES: usize = 64;

/// The most channels that an image may have.
pub const CHANNELS: usize = 96;

/// The most stations on a channel, and in a row.
pub const STATIONS: usize = 8;

/// The most stations in an image.
pub const ALL_STATIONS: usize = 256;

/// The most places of a queue.
pub const QUEUE: usize = 8;

/// How long the longest image is.
pub const IMAGE_BYTES: usize = 802;

/// The most cycles that a state counts, and the last cycle of the strict system.
pub const CYCLES: u32 = 1_000_000;

/// Where the nodes begin among the bytes of a state.
pub const NODES_PLACE: usize = 4;

/// Where the channels' pending bytes begin.
pub const PENDING_PLACE: usize = 516;

/// Where the station records begin.
pub const STATIONS_PLACE: usize = 612;

/// Where the queues begin.
pub const QUEUES_PLACE: usize = 7_524;

/// How many bytes a state has.
pub const STATE_BYTES: usize = 10_692;

/// How many bytes a node has: the value that it shows and its firings, 4 bytes each.
pub const NODE_BYTES: usize = 8;

/// How many bytes a station record has: two tokens of 4 bytes, oldest first, and how many it holds.
pub const STATION_BYTES: usize = 9;

/// How many bytes a queue has: eight tokens of 4 bytes, oldest first, and how many it holds.
pub const QUEUE_BYTES: usize = 33;

/// Room that is enough for the header line of a trace.
pub const HEADER_LINE_BYTES: usize = 13;

/// Room that is enough for every cycle's line of a trace.
pub const CYCLE_LINE_BYTES: usize = 1_259;

/// Room that is enough for every closing line of a trace.
pub const CLOSING_LINE_BYTES: usize = 710;

/// Room on the stack that is enough for every call of [`raw`]. The header has each call's. The functions of this module
/// hand states on by value, which takes some more.
pub const STACK_BYTES: usize = 262_144;

/// A kind of node, as its byte in an image: `Kind::Sum as u8`.
#[derive(Clone, Copy, Debug, PartialEq, Eq)]
pub enum Kind {
    Count = 1,
    Hold = 2,
    Total = 3,
    Negate = 4,
    Halve = 5,
    Sum = 6,
    Difference = 7,
    Larger = 8,
    Choose = 9,
}

/// The number that refuses a call: one of the constants below.
#[derive(Clone, Copy, Debug, PartialEq, Eq)]
pub struct Refused(pub u8);

impl Refused {
    pub const SHORT: Refused = Refused(1);
    pub const SIZES: Refused = Refused(2);
    pub const LENGTH: Refused = Refused(3);
    pub const KIND: Refused = Refused(4);
    pub const WIRE: Refused = Refused(5);
    pub const PORT: Refused = Refused(6);
    pub const FED_TWICE: Refused = Refused(7);
    pub const NOT_FED: Refused = Refused(8);
    pub const STATIONS: Refused = Refused(9);
    pub const DEPTH: Refused = Refused(10);
    pub const TOTAL: Refused = Refused(11);
    pub const STALL: Refused = Refused(12);
    pub const ROOM: Refused = Refused(13);
    pub const LIMIT: Refused = Refused(14);
    pub const ROW: Refused = Refused(15);
    pub const MISFIT: Refused = Refused(21);
    pub const CYCLES: Refused = Refused(22);

    /// What causes the number.
    pub fn cause(self) -> &'static str {
        match self {
            Refused::SHORT => "image under 2 bytes",
            Refused::SIZES => "N is 0 or over 64, or C over 96",
            Refused::LENGTH => "length not 2 + 5N + 5C",
            Refused::KIND => "kind not 1 to 9",
            Refused::WIRE => "wire names a node not there",
            Refused::PORT => "port not below the to node's inputs",
            Refused::FED_TWICE => "a port fed twice",
            Refused::NOT_FED => "a port not fed",
            Refused::STATIONS => "stations over 8",
            Refused::DEPTH => "queue 0 or over 8",
            Refused::TOTAL => "over 256 stations in all",
            Refused::STALL => "stall word sets a bit at or above N",
            Refused::ROOM => "a lent array shorter than the result",
            Refused::LIMIT => "strict cycle over 1,000,000, or over 4,096 words",
            Refused::ROW => "row of no records or over 8",
            Refused::MISFIT => "the state does not fit the image, or a record its form",
            Refused::CYCLES => "the cycle count is 1,000,000",
            _ => "a number without a cause",
        }
    }
}

impl fmt::Display for Refused {
    fn fmt(&self, f: &mut fmt::Formatter<'_>) -> fmt::Result {
        write!(f, "refused {}: {}", self.0, self.cause())
    }
}

impl std::error::Error for Refused {}

/// The state of a netlist, in the layout that the header gives.
///
/// It fits the image that [`fresh`] made it from. A call with another image answers 21 or goes on from it, as that
/// image has it.
#[derive(Clone, PartialEq, Eq)]
pub struct State([u8; STATE_BYTES]);

impl State {
    /// A state of these bytes, whatever they are. Each call that is handed it tests whether it fits.
    pub fn from_bytes(bytes: [u8; STATE_BYTES]) -> Self {
        State(bytes)
    }

    /// The bytes of the state.
    pub fn as_bytes(&self) -> &[u8; STATE_BYTES] {
        &self.0
    }

    /// The cycle count.
    pub fn cycles(&self) -> u32 {
        u32::from_le_bytes(self.four(0))
    }

    /// The value that a node shows.
    ///
    /// # Panics
    ///
    /// If `node` is 64 or more.
    pub fn value(&self, node: usize) -> i32 {
        assert!(node < NODES, "a state has 64 nodes");
        i32::from_le_bytes(self.four(NODES_PLACE + NODE_BYTES * node))
    }

    /// How often a node has fired.
    ///
    /// # Panics
    ///
    /// If `node` is 64 or more.
    pub fn firings(&self, node: usize) -> u32 {
        assert!(node < NODES, "a state has 64 nodes");
        u32::from_le_bytes(self.four(NODES_PLACE + NODE_BYTES * node + 4))
    }

    fn four(&self, at: usize) -> [u8; 4] {
        std::array::from_fn(|i| self.0[at + i])
    }
}

/// What a bench answers.
#[derive(Clone, Copy, Debug, PartialEq, Eq)]
pub struct Answer {
    /// What the link below reads: `T`, `R`, `I` or `S`.
    pub letter: u8,
    /// The value of a `T` or an `R`, 0 otherwise.
    pub value: i32,
    /// Whether the incoming token was taken.
    pub taken: bool,
}

/// A station record as bytes.
pub type Station = [u8; STATION_BYTES];

/// The edition of the library, to be compared with [`EDITION`], and with that of the library that made a state which was
/// kept.
pub fn edition() -> u32 {
    raw::edition()
}

/// Judges an image.
pub fn judge(image: &[u8]) -> Result<(), Refused> {
    accepted(raw::judge(image), ())
}

/// Returns the fresh state of an image.
pub fn fresh(image: &[u8]) -> Result<State, Refused> {
    let mut state = State([0; STATE_BYTES]);
    accepted(raw::fresh(image, &mut state.0), ())?;
    Ok(state)
}

/// Makes one cycle, in which bit i of `word` stalls node i.
///
/// Writes what each channel reads to the first places of `letters` and `values`.
pub fn step(image: &[u8], state: &mut State, word: u64, letters: &mut [u8], values: &mut [i32]) -> Result<(), Refused> {
    accepted(raw::step(image, &mut state.0, word, letters, values), ())
}

/// Makes a cycle for each word in order, up to the first that is refused.
///
/// Returns how many cycles were made, and the refusal if there was one.
pub fn run(image: &[u8], state: &mut State, words: &[u64]) -> (u32, Option<Refused>) {
    let (number, steps) = raw::run(image, &mut state.0, words);
    (steps, accepted(number, ()).err())
}

/// Writes the strict values of all nodes in a cycle to the first places of `values`.
pub fn strict(image: &[u8], cycle: u32, values: &mut [i32]) -> Result<(), Refused> {
    accepted(raw::strict(image, cycle, values), ())
}

/// Writes the header line of a trace to `out`, and returns it.
pub fn header_line(out: &mut [u8]) -> Result<&[u8], Refused> {
    let (number, length) = raw::header_line(out);
    accepted(number, &out[..length])
}

/// Makes one cycle, writes its line of a trace to `out`, and returns it.
pub fn cycle_line<'a>(image: &[u8], state: &mut State, word: u64, out: &'a mut [u8]) -> Result<&'a [u8], Refused> {
    let (number, length) = raw::cycle_line(image, &mut state.0, word, out);
    accepted(number, &out[..length])
}

/// Writes the closing line of a trace to `out`, and returns it.
pub fn closing_line<'a>(image: &[u8], state: &State, out: &'a mut [u8]) -> Result<&'a [u8], Refused> {
    let (number, length) = raw::closing_line(image, &state.0, out);
    accepted(number, &out[..length])
}

/// Makes one cycle of a station, with a token on the link above, if any, and the stop on the link below.
pub fn station(record: &mut Station, token: Option<i32>, stop: bool) -> Result<Answer, Refused> {
    let (number, answer) = raw::station(record, token.is_some(), token.unwrap_or(0), stop);
    accepted(number, answer)
}

/// Makes one cycle of a row of 1 to 8 stations, the first nearest to the link above.
pub fn row(records: &mut [Station], token: Option<i32>, stop: bool) -> Result<Answer, Refused> {
    let (number, answer) = raw::row(records.as_flattened_mut(), token.is_some(), token.unwrap_or(0), stop);
    accepted(number, answer)
}

fn accepted<T>(number: u8, answer: T) -> Result<T, Refused> {
    match number {
        0 => Ok(answer),
        _ => Err(Refused(number)),
    }
}

/// The header's functions one to one: slices of any length go in, the number and what else is answered comes out.
///
/// All of them are safe. A slice's pointer is valid for its length and never null, a mutable slice overlaps nothing
/// else that is borrowed, and of the bytes nothing is asked.
pub mod raw {
    use super::Answer;

    // What answers are stored over, so that one that is not stored shows.
    const UNSET: u8 = 0xff;

    #[link(name = "capi", kind = "static")]
    extern "C" {
        fn channel_bench_edition() -> u32;
        fn channel_bench_judge(image: *const u8, image_len: usize) -> u8;
        fn channel_bench_fresh(image: *const u8, image_len: usize, state: *mut u8, state_len: usize) -> u8;
        fn channel_bench_step(
            image: *const u8,
            image_len: usize,
            state: *mut u8,
            state_len: usize,
            word: u64,
            letters: *mut u8,
            letters_len: usize,
            values: *mut i32,
            values_len: usize,
        ) -> u8;
        fn channel_bench_run(
            image: *const u8,
            image_len: usize,
            state: *mut u8,
            state_len: usize,
            words: *const u64,
            words_len: usize,
            steps: *mut u32,
        ) -> u8;
        fn channel_bench_strict(
            image: *const u8,
            image_len: usize,
            cycle: u32,
            values: *mut i32,
            values_len: usize,
        ) -> u8;
        fn channel_bench_header_line(out: *mut u8, out_len: usize, length: *mut usize) -> u8;
        fn channel_bench_cycle_line(
            image: *const u8,
            image_len: usize,
            state: *mut u8,
            state_len: usize,
            word: u64,
            out: *mut u8,
            out_len: usize,
            length: *mut usize,
        ) -> u8;
        fn channel_bench_closing_line(
            image: *const u8,
            image_len: usize,
            state: *const u8,
            state_len: usize,
            out: *mut u8,
            out_len: usize,
            length: *mut usize,
        ) -> u8;
        fn channel_bench_station(
            station: *mut u8,
            station_len: usize,
            valid: bool,
            value: i32,
            stop: bool,
            letter: *mut u8,
            shown: *mut i32,
            taken: *mut bool,
        ) -> u8;
        fn channel_bench_row(
            row: *mut u8,
            row_len: usize,
            valid: bool,
            value: i32,
            stop: bool,
            letter: *mut u8,
            shown: *mut i32,
            taken: *mut bool,
        ) -> u8;
    }

    /// `channel_bench_edition`.
    pub fn edition() -> u32 {
        unsafe { channel_bench_edition() }
    }

    /// `channel_bench_judge`.
    pub fn judge(image: &[u8]) -> u8 {
        unsafe { channel_bench_judge(image.as_ptr(), image.len()) }
    }

    /// `channel_bench_fresh`.
    pub fn fresh(image: &[u8], state: &mut [u8]) -> u8 {
        unsafe { channel_bench_fresh(image.as_ptr(), image.len(), state.as_mut_ptr(), state.len()) }
    }

    /// `channel_bench_step`.
    pub fn step(image: &[u8], state: &mut [u8], word: u64, letters: &mut [u8], values: &mut [i32]) -> u8 {
        unsafe {
            channel_bench_step(
                image.as_ptr(),
                image.len(),
                state.as_mut_ptr(),
                state.len(),
                word,
                letters.as_mut_ptr(),
                letters.len(),
                values.as_mut_ptr(),
                values.len(),
            )
        }
    }

    /// `channel_bench_run`: the number and the steps.
    pub fn run(image: &[u8], state: &mut [u8], words: &[u64]) -> (u8, u32) {
        let mut steps = u32::from_ne_bytes([UNSET; 4]);
        let number = unsafe {
            channel_bench_run(
                image.as_ptr(),
                image.len(),
                state.as_mut_ptr(),
                state.len(),
                words.as_ptr(),
                words.len(),
                &mut steps,
            )
        };
        (number, steps)
    }

    /// `channel_bench_strict`.
    pub fn strict(image: &[u8], cycle: u32, values: &mut [i32]) -> u8 {
        unsafe { channel_bench_strict(image.as_ptr(), image.len(), cycle, values.as_mut_ptr(), values.len()) }
    }

    /// `channel_bench_header_line`: the number and the length.
    pub fn header_line(out: &mut [u8]) -> (u8, usize) {
        let mut length = usize::MAX;
        let number = unsafe { channel_bench_header_line(out.as_mut_ptr(), out.len(), &mut length) };
        (number, length)
    }

    /// `channel_bench_cycle_line`: the number and the length.
    pub fn cycle_line(image: &[u8], state: &mut [u8], word: u64, out: &mut [u8]) -> (u8, usize) {
        let mut length = usize::MAX;
        let number = unsafe {
            channel_bench_cycle_line(
                image.as_ptr(),
                image.len(),
                state.as_mut_ptr(),
                state.len(),
                word,
                out.as_mut_ptr(),
                out.len(),
                &mut length,
            )
        };
        (number, length)
    }

    /// `channel_bench_closing_line`: the number and the length.
    pub fn closing_line(image: &[u8], state: &[u8], out: &mut [u8]) -> (u8, usize) {
        let mut length = usize::MAX;
        let number = unsafe {
            channel_bench_closing_line(
                image.as_ptr(),
                image.len(),
                state.as_ptr(),
                state.len(),
                out.as_mut_ptr(),
                out.len(),
                &mut length,
            )
        };
        (number, length)
    }

    /// `channel_bench_station`: the number and the answer.
    pub fn station(station: &mut [u8], valid: bool, value: i32, stop: bool) -> (u8, Answer) {
        let mut answer = unset();
        let Answer { letter, value: shown, taken } = &mut answer;
        let number = unsafe {
            channel_bench_station(station.as_mut_ptr(), station.len(), valid, value, stop, letter, shown, taken)
        };
        (number, answer)
    }

    /// `channel_bench_row`: the number and the answer.
    pub fn row(row: &mut [u8], valid: bool, value: i32, stop: bool) -> (u8, Answer) {
        let mut answer = unset();
        let Answer { letter, value: shown, taken } = &mut answer;
        let number =
            unsafe { channel_bench_row(row.as_mut_ptr(), row.len(), valid, value, stop, letter, shown, taken) };
        (number, answer)
    }

    fn unset() -> Answer {
        Answer { letter: UNSET, value: i32::MIN, taken: true }
    }
}
