//! A relay station and a row of them as one would write them in ordinary Rust: for the engine, and to time our row
//! bench against.
use crate::channel_bench::STATION_BYTES;

#[derive(Clone, Copy, Default, PartialEq)]
pub struct Station {
    pub tokens: [i32; 2],
    pub count: u8,
}

/// What a bench answers: letter and value of the link below, and whether the incoming token was taken.
#[derive(Clone, Copy, Default, PartialEq)]
pub struct Answer {
    pub letter: u8,
    pub value: i32,
    pub taken: bool,
}

impl Station {
    pub fn read(record: &[u8; STATION_BYTES]) -> Self {
        Station { tokens: [four(record, 0), four(record, 4)], count: record[8] }
    }

    pub fn write(&self, record: &mut [u8]) {
        record[..4].copy_from_slice(&self.tokens[0].to_le_bytes());
        record[4..8].copy_from_slice(&self.tokens[1].to_le_bytes());
        record[8] = self.count;
    }

    /// Whether the count is at most 2 and every place that holds no token is 0.
    pub fn fits(&self) -> bool {
        match self.count {
            0 => self.tokens == [0, 0],
            1 => self.tokens[1] == 0,
            2 => true,
            _ => false,
        }
    }

    pub fn shown(&self) -> Option<i32> {
        (self.count > 0).then_some(self.tokens[0])
    }

    pub fn full(&self) -> bool {
        self.count == 2
    }

    fn cycle(&mut self, offered: Option<i32>, stop: bool) {
        let full = self.full();
        if self.count > 0 && !stop {
            self.tokens = [self.tokens[1], 0];
            self.count -= 1;
        }
        if let Some(token) = offered.filter(|_| !full) {
            self.tokens[self.count as usize] = token;
            self.count += 1;
        }
    }
}

/// One cycle of a row in place, record by record with the link carried along. Answers what the leaving link showed; a
/// row of no records is its own link.
pub fn cycle(row: &mut [Station], mut link: Option<i32>, stop: bool) -> Option<i32> {
    for j in 0..row.len() {
        let stop = row.get(j + 1).map_or(stop, Station::full);
        let shown = row[j].shown();
        row[j].cycle(link, stop);
        link = shown;
    }
    link
}

/// The row bench on station structs, in place.
pub fn bench(row: &mut [Station], token: Option<i32>, stop: bool) -> (u8, Answer) {
    if row.is_empty() || row.len() > 8 {
        return (15, Answer::default());
    }
    if !row.iter().all(Station::fits) {
        return (21, Answer::default());
    }
    let taken = token.is_some() && !row[0].full();
    let leaving = cycle(row, token, stop);
    (0, Answer { letter: letter(leaving, stop), value: leaving.unwrap_or(0), taken })
}

/// The row bench on records of bytes, as the C boundary has it.
pub fn bench_bytes(bytes: &mut [u8], token: Option<i32>, stop: bool) -> (u8, Answer) {
    let length = bytes.len().div_ceil(STATION_BYTES);
    if length == 0 || length > 8 {
        return (15, Answer::default());
    }
    if bytes.len() % STATION_BYTES != 0 {
        return (21, Answer::default());
    }
    let mut row = [Station::default(); 8];
    for (station, record) in row.iter_mut().zip(bytes.as_chunks().0) {
        *station = Station::read(record);
    }
    let (number, answer) = bench(&mut row[..length], token, stop);
    if number == 0 {
        for (station, record) in row.iter().zip(bytes.chunks_exact_mut(STATION_BYTES)) {
            station.write(record);
        }
    }
    (number, answer)
}

/// The letter of a link.
pub fn letter(token: Option<i32>, stop: bool) -> u8 {
    match (token.is_some(), stop) {
        (true, false) => b'T',
        (true, true) => b'R',
        (false, false) => b'I',
        (false, true) => b'S',
    }
}

/// The signed number of four bytes, low byte first.
pub fn four(bytes: &[u8], at: usize) -> i32 {
    i32::from_le_bytes([bytes[at], bytes[at + 1], bytes[at + 2], bytes[at + 3]])
}
