//! What the comparison stands on: groups of inputs with counts of what came of them, cases that collect what differs,
//! and lent arrays whose surroundings are watched.
use crate::inputs::Random;
use std::fmt::{Debug, Write};

/// How many mismatches of a group are shown.
const SHOWN: usize = 3;

/// A group of inputs and what came of them.
pub struct Group {
    name: &'static str,
    begun: usize,
    pub cases: usize,
    /// How often each number was answered; 0 is accepted.
    pub numbers: [usize; 256],
    /// How many cases were found to differ.
    pub wrong: usize,
}

/// A case of a group. What is found to differ is shown when it ends.
pub struct Case<'a, D: Fn() -> String> {
    group: &'a mut Group,
    described: D,
    pub differences: Vec<String>,
}

impl Group {
    pub fn new(name: &'static str) -> Group {
        Group { name, begun: 0, cases: 0, numbers: [0; 256], wrong: 0 }
    }

    /// Begins another test of the group, which may have any number of cases.
    pub fn begin(&mut self) {
        self.begun += 1;
    }

    /// How many tests were begun before the present one.
    pub fn begun(&self) -> usize {
        self.begun - 1
    }

    /// A case in which the library answered a number.
    pub fn case<D: Fn() -> String>(&mut self, number: u8, described: D) -> Case<'_, D> {
        self.cases += 1;
        self.numbers[number as usize] += 1;
        Case { group: self, described, differences: Vec::new() }
    }

    /// Prints how many inputs there were, and how many were accepted or refused by each number.
    pub fn print(&self) {
        let mut line = format!("{}: {} inputs, {} accepted", self.name, self.cases, self.numbers[0]);
        let refused = (1..256).filter(|&number| self.numbers[number] > 0);
        for (i, number) in refused.enumerate() {
            let before = if i == 0 { "; refused" } else { "," };
            write!(line, "{before} {} by {number}", self.numbers[number]).unwrap();
        }
        if self.wrong > 0 {
            write!(line, "; {} MISMATCHES", self.wrong).unwrap();
        }
        println!("{line}");
    }
}

impl<D: Fn() -> String> Case<'_, D> {
    /// Notes that a claim does not hold.
    pub fn that(&mut self, claim: &str, holds: bool) -> &mut Self {
        if !holds {
            self.differences.push(format!("not so: {claim}"));
        }
        self
    }

    /// Notes that two answers differ.
    pub fn same<T: PartialEq + Debug>(&mut self, what: &str, library: T, simulator: T) -> &mut Self {
        if library != simulator {
            self.differences.push(format!("{what}: library {library:?}, simulator {simulator:?}"));
        }
        self
    }

    /// Notes the first place, in a lent array or around it, that differs.
    pub fn same_lent<T: PartialEq + Debug>(&mut self, what: &str, library: &Lent<T>, simulator: &Lent<T>) -> &mut Self {
        let places = library.all.iter().zip(&simulator.all);
        if let Some((i, (l, s))) = places.enumerate().find(|(_, (l, s))| l != s) {
            let at = i as i64 - GUARD as i64;
            let length = library.length;
            self.differences.push(format!("{what}, place {at} of {length}: library {l:?}, simulator {s:?}"));
        }
        self
    }
}

impl<D: Fn() -> String> Drop for Case<'_, D> {
    fn drop(&mut self) {
        if self.differences.is_empty() {
            return;
        }
        if self.group.wrong < SHOWN {
            println!("mismatch: {}, input {}: {}", self.group.name, self.group.cases, (self.described)());
            self.differences.iter().for_each(|difference| println!("    {difference}"));
        }
        self.group.wrong += 1;
    }
}

/// How many places around a lent array are watched.
const GUARD: usize = 8;

/// An array to be lent, with places before and behind it that nobody may touch.
#[derive(Clone)]
pub struct Lent<T> {
    all: Vec<T>,
    pub length: usize,
}

impl<T: Copy> Lent<T> {
    /// Lends what is given, with places around it that hold `around`.
    pub fn of(contents: &[T], around: T) -> Lent<T> {
        let guard = [around; GUARD];
        Lent { all: [&guard, contents, &guard].concat(), length: contents.len() }
    }

    pub fn slice(&mut self) -> &mut [T] {
        &mut self.all[GUARD..GUARD + self.length]
    }

    pub fn read(&self) -> &[T] {
        &self.all[GUARD..GUARD + self.length]
    }

    /// The same after `result` was written to its first places.
    pub fn with(&self, result: &[T]) -> Lent<T> {
        let mut lent = self.clone();
        lent.slice()[..result.len()].copy_from_slice(result);
        lent
    }
}

impl Lent<u8> {
    /// Lends bytes drawn at random.
    pub fn bytes(random: &mut Random, length: usize) -> Lent<u8> {
        Lent { all: random.bytes(length + 2 * GUARD), length }
    }
}

impl Lent<i32> {
    /// Lends values drawn at random.
    pub fn values(random: &mut Random, length: usize) -> Lent<i32> {
        Lent { all: (0..length + 2 * GUARD).map(|_| random.draw() as i32).collect(), length }
    }
}

/// The first bytes, to be shown.
pub fn hex(bytes: &[u8]) -> String {
    let mut text: String = bytes.iter().take(120).map(|byte| format!("{byte:02x}")).collect();
    if bytes.len() > 120 {
        text += "..";
    }
    format!("{text} ({} bytes)", bytes.len())
}
