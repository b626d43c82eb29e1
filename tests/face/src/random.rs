//! Random choices from a seed, how many turns a test makes, and what it has met in them.

use std::sync::atomic::{AtomicU64, Ordering};

/// Marsaglia's xorshift of 64 bits.
#[derive(Clone)]
pub struct Random(u64);

impl Random {
    pub fn new(seed: u64) -> Random {
        let mut r = Random(seed.wrapping_mul(0x9E37_79B9_7F4A_7C15) | 1);
        for _ in 0..8 {
            r.next();
        }
        r
    }

    pub fn next(&mut self) -> u64 {
        self.0 ^= self.0 << 13;
        self.0 ^= self.0 >> 7;
        self.0 ^= self.0 << 17;
        self.0
    }

    /// A number below n.
    pub fn below(&mut self, n: u64) -> u64 {
        self.next() % n
    }

    /// Once in n times.
    pub fn once_in(&mut self, n: u64) -> bool {
        self.below(n) == 0
    }

    /// One of these.
    pub fn one<'a, T: ?Sized>(&mut self, of: &[&'a T]) -> &'a T {
        of[self.below(of.len() as u64) as usize]
    }

    /// A value with few bits as often as one with many.
    pub fn any(&mut self, most_bits: u32) -> u64 {
        let bits = self.below(most_bits as u64 + 1) as u32;
        if bits == 0 {
            0
        } else {
            self.next() >> (64 - bits)
        }
    }

    /// Damages some bytes of a text now and then: changed, cut off or added.
    pub fn damage(&mut self, text: &mut Vec<u8>, with: &[u8]) {
        if !self.once_in(3) {
            return;
        }
        for _ in 0..=self.below(3) {
            let at = self.below(text.len() as u64 + 1) as usize;
            let byte = if self.once_in(3) { self.next() as u8 } else { with[self.below(with.len() as u64) as usize] };
            match self.below(3) {
                0 if at < text.len() => text[at] = byte,
                1 if at < text.len() => {
                    text.remove(at);
                }
                _ => text.insert(at, byte),
            }
        }
    }
}

/// Makes a test's turns, each with its seed: as many as TURNS says, or `usual` without it; from SEED on, if it is given. A turn that fails says how to repeat it. Answers whether
/// the turns were as many as usual, or more.
pub fn turns(usual: u64, name: &str, turn: impl Fn(u64) + std::panic::RefUnwindSafe) -> bool {
    let number = |key: &str, else_: u64| std::env::var(key).ok().filter(|v| !v.is_empty()).map_or(else_, |v| v.parse().expect("a number"));
    let (first, count) = (number("SEED", 1), number("TURNS", usual));
    for seed in first..first + count {
        if let Err(failure) = std::panic::catch_unwind(|| turn(seed)) {
            eprintln!("seed {seed} fails; again: SEED={seed} TURNS=1 cargo test --release -p face {name}");
            std::panic::resume_unwind(failure);
        }
    }
    count >= usual
}

/// How often a test has met each of the cases that it is for, so that none of them can go missing unseen.
pub struct Met(Vec<(&'static str, AtomicU64)>);

impl Met {
    pub fn of(cases: &[&'static str]) -> Met {
        Met(cases.iter().map(|case| (*case, AtomicU64::new(0))).collect())
    }

    /// Met once more.
    pub fn one(&self, case: &str) {
        self.more(case, 1);
    }

    /// Met so many times more.
    pub fn more(&self, case: &str, times: u64) {
        let counted = self.0.iter().find(|counted| counted.0 == case);
        counted.unwrap_or_else(|| panic!("no case {case}")).1.fetch_add(times, Ordering::Relaxed);
    }

    /// After the usual turns each case must have been met so often.
    pub fn each(&self, is_usual: bool, least: u64) {
        for (case, count) in &self.0 {
            let count = count.load(Ordering::Relaxed);
            assert!(!is_usual || count >= least, "{case}: met only {count} times");
        }
    }
}
