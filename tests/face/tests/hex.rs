//! Intel HEX of the data memory and of the disk, compared with the second implementation. Lent memory holds a pattern before each call, and stands between words that are not lent.

use face::hex_texts::hex_file;
use face::random::{turns, Random};
use face::Told;
use reference::hex;
use std::collections::BTreeMap;

fn told(r: Result<usize, reference::Refusal>) -> Told {
    match r {
        Ok(count) => Told { number: 0, place: 0, count: count as u64 },
        Err(no) => Told { number: no.number, place: no.place as u64, count: 0 },
    }
}

fn length(r: &mut Random, right: usize) -> usize {
    if r.once_in(12) {
        [0, 1, 128, 4095, 4096, 4097, 16383, 16384, 16385][r.below(9) as usize]
    } else {
        right
    }
}

/// The words that are lent and the text that is read into them.
fn reading(r: &mut Random, right: usize) -> (usize, Vec<u8>) {
    (length(r, right), hex_file(r, 4 * right as u64))
}

/// Words that are not lent, on each side of those that are.
const AROUND: usize = 4;

/// Reads a random text with both.
macro_rules! reads {
    ($name:ident, $call:ident, $right:expr) => {
        #[test]
        fn $name() {
            turns(3000, stringify!($name), |seed| {
                let (words, text) = reading(&mut Random::new(seed), $right);
                let mut ours = vec![0xA5A5_A5A5; AROUND + words + AROUND];
                let mut theirs = ours.clone();
                let answer = face::$call(&text, &mut ours[AROUND..AROUND + words]);
                let expected = told(hex::$call(&text, &mut theirs[AROUND..AROUND + words]).map(|()| 0));
                assert_eq!(answer, expected, "of\n{}", String::from_utf8_lossy(&text[..text.len().min(2000)]));
                assert!(ours == theirs, "the memories differ");
            });
        }
    };
}
reads!(data_read, read_hex_data, 4096);
reads!(disks_read, read_hex_disk, 16384);

/// The random texts reach every number, and the good ones more than the zero memory.
#[test]
fn every_number_comes_up() {
    for right in [4096, 16384] {
        let mut counts = BTreeMap::new();
        let mut words_named = 0;
        for seed in 1..=3000 {
            let (words, text) = reading(&mut Random::new(seed), right);
            let mut memory = vec![0; words];
            let answer = if right == 4096 { hex::read_hex_data(&text, &mut memory) } else { hex::read_hex_disk(&text, &mut memory) };
            *counts.entry(told(answer.map(|()| 0)).number).or_insert(0) += 1;
            words_named += memory.iter().any(|word| *word != 0) as u32;
        }
        println!("{right} words: {counts:?}, {words_named} with words that are not zero");
        assert!([0, 1, 17, 18, 19].iter().all(|number| counts[number] >= 100) && counts.len() == 5, "{counts:?}");
        assert!(words_named >= 500, "{words_named}");
    }
}

fn room(r: &mut Random, text: usize) -> usize {
    match r.below(5) {
        0 => text - 1,
        1 => text + 9,
        2 => r.below(text as u64 + 1) as usize,
        _ => text,
    }
}

/// Writes a random memory with both, and reads it back.
macro_rules! writes {
    ($name:ident, $call:ident, $back:ident, $right:expr) => {
        #[test]
        fn $name() {
            turns(100, stringify!($name), |seed| {
                let r = &mut Random::new(seed);
                let words = length(r, $right);
                let memory: Vec<u32> = (0..words).map(|_| r.any(32) as u32).collect();
                let n = room(r, 11 * words + 12);
                let mut ours = vec![0xA5; AROUND + n + AROUND];
                let mut theirs = ours.clone();
                let answer = face::$call(&memory, &mut ours[AROUND..AROUND + n]);
                assert_eq!(answer, told(hex::$call(&memory, &mut theirs[AROUND..AROUND + n])));
                assert!(ours == theirs, "the texts differ");
                if answer.number == 0 {
                    let mut back = vec![0xA5A5_A5A5; words];
                    let text = &ours[AROUND..AROUND + answer.count as usize];
                    assert_eq!(face::$back(text, &mut back), Told { number: 0, place: 0, count: 0 });
                    assert!(back == memory, "it reads back otherwise");
                }
            });
        }
    };
}
writes!(data_written, write_hex_data, read_hex_data, 4096);
writes!(disks_written, write_hex_disk, read_hex_disk, 16384);
