//! What the tests share.
#![allow(dead_code)]

use reference::assembler::assemble;
use reference::record::Record;
use reference::run::{run, RunAnswer};
use reference::*;

/// A record with its memories.
#[derive(Clone, Debug, PartialEq)]
pub struct Lab {
    pub record: Record,
    pub image: Vec<u64>,
    pub data: Vec<u32>,
    pub disk: Vec<u32>,
    pub frame: Vec<u8>,
    pub irq2: Vec<u64>,
}

impl Lab {
    /// Fresh record, all memories zero.
    pub fn empty() -> Lab {
        Lab {
            record: Record::fresh(),
            image: vec![0; IMAGE_WORDS],
            data: vec![0; DATA_WORDS],
            disk: vec![0; DISK_WORDS],
            frame: vec![0; FRAME_BYTES],
            irq2: vec![],
        }
    }

    /// Fresh record, the image and data of an assembly text.
    pub fn of(source: &str) -> Lab {
        let mut lab = Lab::empty();
        assemble(source.as_bytes(), &mut lab.image, &mut lab.data).expect("a good text");
        lab
    }

    /// One run with room for every line; the record goes on. Gives log and answer.
    pub fn run(&mut self, budget: u64) -> (String, RunAnswer) {
        let mut log = vec![0; budget as usize * 231];
        let answer = run(
            &self.record,
            &self.image,
            &mut self.data,
            &mut self.disk,
            &mut self.frame,
            &self.irq2,
            budget,
            &mut log,
        );
        assert_eq!(answer.refusal, None);
        self.record = answer.record.clone();
        log.truncate(answer.log_bytes);
        (String::from_utf8(log).unwrap(), answer)
    }

    /// One cycle that must be made; gives its lines other than T, joined with `|`.
    pub fn cycle(&mut self) -> String {
        let (log, answer) = self.run(1);
        assert_eq!(answer.cycles, 1);
        without_t(&log)
    }

    /// R3 to R15 by number.
    pub fn r(&self, number: usize) -> u32 {
        self.record.r[number - 3]
    }

    pub fn set_r(&mut self, number: usize, value: u32) {
        self.record.r[number - 3] = value;
    }
}

/// The lines of a log other than T, joined with `|`.
pub fn without_t(log: &str) -> String {
    let kept: Vec<&str> = log.lines().filter(|line| !line.starts_with('T')).collect();
    kept.join("|")
}

/// The lines of a log that begin with `letter`.
pub fn only(log: &str, letter: char) -> Vec<String> {
    log.lines()
        .filter(|line| line.starts_with(letter))
        .map(|line| line.to_string())
        .collect()
}

/// Assembles into memories that hold something; a refused text must leave all of it.
pub fn assembled(source: &[u8]) -> Result<(Vec<u64>, Vec<u32>), (u32, usize)> {
    let mut image = vec![0xABCD_0123_4567_89AB; IMAGE_WORDS];
    let mut data = vec![0x8765_4321; DATA_WORDS];
    match assemble(source, &mut image, &mut data) {
        Ok(()) => Ok((image, data)),
        Err(refusal) => {
            assert!(image.iter().all(|word| *word == 0xABCD_0123_4567_89AB));
            assert!(data.iter().all(|word| *word == 0x8765_4321));
            Err((refusal.number, refusal.place))
        }
    }
}

/// The word of a line of assembly.
pub fn word(line: &str) -> u64 {
    assembled(line.as_bytes()).expect("a good line").0[0]
}

/// Refusals as pairs.
pub fn pair<T>(answer: Result<T, Refusal>) -> Result<T, (u32, usize)> {
    answer.map_err(|refusal| (refusal.number, refusal.place))
}

/// A plain source of numbers for tests over many cases (a linear congruence).
pub struct Numbers(pub u64);

impl Numbers {
    pub fn next(&mut self) -> u64 {
        self.0 = self
            .0
            .wrapping_mul(6364136223846793005)
            .wrapping_add(1442695040888963407);
        self.0 >> 16
    }

    pub fn below(&mut self, bound: u64) -> u64 {
        self.next() % bound
    }
}
