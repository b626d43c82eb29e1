//! Records saved and read, compared with the second implementation.

use face::random::{turns, Met, Random};
use face::{numbers_of, record_of, texts, IO_0, R3};
use reference::record::{edition_1, read, save};

#[test]
fn records_saved() {
    let met = Met::of(&["free", "busy", "1", "1 of edition 1's length", "13", "13, a number too wide", "13, sector or buffer alone"]);
    let is_usual = turns(20_000, "records_saved", |seed| {
        let r = &mut Random::new(seed);
        let numbers = texts::record(r);
        let n = if r.once_in(20) { [0, 90, 91, 92, 93, 95][r.below(6) as usize] } else { 94 };
        let (mut ours, mut theirs) = (vec![0xA5; n], vec![0xA5; n]);
        let expected = match record_of(&numbers) {
            Some(record) => save(&record, &mut theirs).err().map_or(0, |no| no.number),
            None => if n == 94 { 13 } else { 1 },
        };
        assert_eq!(face::save(&numbers, &mut ours), expected, "of {numbers:?}");
        assert_eq!(ours, theirs);
        match expected {
            0 => met.one(if numbers[4] > 0 { "busy" } else { "free" }),
            1 => met.one(if n == 91 { "1 of edition 1's length" } else { "1" }),
            _ => {
                met.one(if record_of(&numbers).is_none() { "13, a number too wide" } else { "13" });
                let mut other = numbers;
                (other[5], other[6]) = (0, 0);
                if record_of(&other).is_some_and(|record| reference::record::is_sound(&record)) {
                    met.one("13, sector or buffer alone");
                }
            }
        }
        if expected == 0 {
            let mut back = [0xA5; 40];
            assert_eq!(face::load(&ours, &mut back), 0);
            assert_eq!(back, numbers);
        }
    });
    met.each(is_usual, 10);
}

#[test]
fn bytes_read() {
    let met = Met::of(&[
        "edition 1", "edition 2, free", "edition 2, busy", "1", "14 of 91 bytes", "14 of 94 bytes", "14: edition 2 of 91 bytes", "14: edition 1 of 94 bytes", "13 of edition 1",
        "13 of a busy edition 1", "13 of edition 2", "13 for the last bits alone", "20",
    ]);
    let is_usual = turns(40_000, "bytes_read", |seed| {
        let r = &mut Random::new(seed);
        let bytes = texts::saved_record(r);
        let mut ours = [0xA5; 40];
        let theirs = read(&bytes);
        let number = theirs.refusal.map_or(0, |no| no.number);
        assert_eq!(face::load(&bytes, &mut ours), number, "of {bytes:02X?}");
        assert_eq!(ours, numbers_of(&theirs.record));
        match (number, bytes.len()) {
            (0, 91) => {
                met.one("edition 1");
                // It is saved as edition 2, with the same fields.
                let mut again = [0xA5; 94];
                assert_eq!(face::save(&ours, &mut again), 0);
                assert_eq!(again[0], 2);
                assert_eq!(edition_1(&read(&again).record).to_vec(), bytes);
            }
            (0, _) => {
                met.one(if ours[4] > 0 { "edition 2, busy" } else { "edition 2, free" });
                let mut again = [0xA5; 94];
                assert_eq!(face::save(&ours, &mut again), 0);
                assert_eq!(again.to_vec(), bytes);
            }
            (14, 91) => met.one(if bytes[0] == 2 { "14: edition 2 of 91 bytes" } else { "14 of 91 bytes" }),
            (14, _) => met.one(if bytes[0] == 1 { "14: edition 1 of 94 bytes" } else { "14 of 94 bytes" }),
            // Bits 65 to 75 are left.
            (13, 91) => met.one(if bytes[8] != 0 || bytes[9] >> 5 != 0 { "13 of a busy edition 1" } else { "13 of edition 1" }),
            (13, _) => {
                met.one("13 of edition 2");
                let mut without = bytes.clone();
                without[93] &= !31;
                if read(&without).refusal.is_none() {
                    met.one("13 for the last bits alone");
                }
            }
            (number, _) => met.one(&number.to_string()),
        }
    });
    met.each(is_usual, 20);
}

/// "Numbers 6 and 7 of 40": the places of sector and buffer, and the bits by hand (D14).
#[test]
fn sector_and_buffer() {
    let mut numbers = [0; 40];
    (numbers[4], numbers[5], numbers[6]) = (1, 127, 3968);
    (numbers[IO_0 + 14], numbers[IO_0 + 17]) = (2, 1);
    let mut bytes = [0xA5; 94];
    assert_eq!(face::save(&numbers, &mut bytes), 0);
    assert_eq!(bytes[..13], [2, 0, 0, 0, 0, 0, 0, 0, 0, 0x3F, 0xFE, 0, 0]);
    let mut back = [0xA5; 40];
    assert_eq!(face::load(&bytes, &mut back), 0);
    assert_eq!(back, numbers);
    numbers[R3] = 0xFFFF_FFFF;
    assert_eq!(face::save(&numbers, &mut bytes), 0);
    assert_eq!(bytes[9..13], [0x3F, 0xFE, 0x03, 0xFF]);
    // The limits, and the widest numbers, in each of the three.
    for (at, sound, unsound) in [(4, 1024, 1025), (5, 127, 128), (6, 3968, 3969)] {
        let before = numbers[at];
        numbers[at] = sound;
        assert_eq!(face::save(&numbers, &mut bytes), 0);
        for value in [unsound, 4095, 4096, 1 << 32, u64::MAX] {
            numbers[at] = value;
            let mut untouched = [0xA5; 94];
            assert_eq!(face::save(&numbers, &mut untouched), 13);
            assert_eq!(untouched, [0xA5; 94]);
        }
        numbers[at] = before;
    }
}

#[test]
fn counts_of_numbers() {
    for n in [0, 1, 38, 39, 41, 100] {
        let mut bytes = [0xA5; 94];
        assert_eq!(face::save(&vec![0; n], &mut bytes), 1);
        assert_eq!(bytes, [0xA5; 94]);
        for bytes in [&[0xA5; 94][..], &[2; 94], &[1; 91], &edition_1(&reference::record::Record::fresh())] {
            let mut record = vec![0xA5; n];
            assert_eq!(face::load(bytes, &mut record), 1);
            assert_eq!(record, vec![0xA5; n]);
        }
    }
}
