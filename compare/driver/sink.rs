//! Where vectors go, which of them a sample keeps, and how many there were.

use crate::calls::{Answer, Call};
use std::collections::BTreeMap;
use std::io::{BufWriter, StdoutLock, Write};

#[derive(Clone, Copy, PartialEq)]
pub enum Mode {
    Full,
    Sample,
    /// The sample, with one bit of each answer turned round.
    Damaged,
}

pub struct Sink {
    out: BufWriter<StdoutLock<'static>>,
    mode: Mode,
    every: u64,
    turn: u64,
    inputs: u64,
    told: BTreeMap<u8, (&'static str, u64)>,
    absent: BTreeMap<String, u64>,
}

impl Sink {
    pub fn new(mode: Mode) -> Sink {
        Sink {
            out: BufWriter::with_capacity(1 << 20, std::io::stdout().lock()),
            mode,
            every: 1,
            turn: 0,
            inputs: 0,
            told: BTreeMap::new(),
            absent: BTreeMap::new(),
        }
    }

    /// From here on a sample keeps one input of so many; 0 keeps none.
    pub fn every(&mut self, n: u64) {
        self.every = n;
        self.turn = 0;
    }

    /// Whether the next input is one to run.
    pub fn wants(&mut self) -> bool {
        let turn = self.turn;
        self.turn += 1;
        self.mode == Mode::Full || (self.every != 0 && turn % self.every == 0)
    }

    /// Whether an input that is run is one for further calls too: in a sample every eighth.
    pub fn further(&mut self) -> bool {
        self.inputs += 1;
        self.mode == Mode::Full || self.inputs % 8 == 0
    }

    /// One call on one input: what it told, or that it stopped at an absent file.
    pub fn run(&mut self, call: Call, input: &[u8]) {
        match call.run(input) {
            Answer::Told(call, numbers) => self.write(call, input, numbers),
            Answer::Absent(what) => *self.absent.entry(what).or_default() += 1,
        }
    }

    /// An answer that a document prints. Where the excerpt can be asked it must say the same.
    pub fn published(&mut self, call: Call, input: &[u8], numbers: Vec<u64>) {
        match call.run(input) {
            Answer::Told(told, own) if told == call => assert_eq!(own, numbers, "{input:02x?}"),
            _ => {}
        }
        self.write(call, input, numbers);
    }

    fn write(&mut self, call: Call, input: &[u8], mut numbers: Vec<u64>) {
        self.told.entry(call as u8).or_insert((call.name(), 0)).1 += 1;
        if self.mode == Mode::Damaged {
            let turn = self.told.values().map(|(_, n)| *n as usize).sum::<usize>();
            let which = turn % numbers.len();
            numbers[which] ^= 1 << (turn % 32);
        }
        let mut head = vec![call as u8];
        head.extend(u16::try_from(input.len()).unwrap().to_be_bytes());
        head.extend(u16::try_from(numbers.len()).unwrap().to_be_bytes());
        self.out.write_all(&head).unwrap();
        self.out.write_all(input).unwrap();
        for n in numbers {
            let n = u32::try_from(n).unwrap();
            self.out.write_all(&n.to_be_bytes()).unwrap();
        }
    }
}

impl Drop for Sink {
    fn drop(&mut self) {
        self.out.flush().unwrap();
        for (name, n) in self.told.values() {
            eprintln!("{name}: {n} answers");
        }
        for (what, n) in &self.absent {
            eprintln!("{what}: {n} absent");
        }
    }
}
