//! The record, its soundness, saving it in 94 bytes, and reading 94 bytes or edition 1's 91.

use crate::machine::{DISK_CYCLES, LAST_DISKBUFFER};
use crate::names::*;
use crate::{Refusal, AGE_LIMIT, DISK_SECTORS, EDITION_1_BYTES, RECORD_BYTES};

/// "The record: status, handler flag, PC, age (cycles done, 40 bits), left (disk cycles to go), R3
/// to R15, the I/O registers." "after `left` come that sector … and buffer", taken at a command's
/// acceptance. `r[0]` is R3. `io` is indexed by the I/O number; its places 18, 19 and 22 hold 0
/// (S1). The fields are wider than their bits so that a test can hand over a record that is not
/// sound.
#[derive(Clone, Debug, PartialEq, Eq)]
pub struct Record {
    pub status: u32,
    pub flag: u32,
    pub pc: u32,
    pub age: u64,
    pub left: u32,
    pub sector: u32,
    pub buffer: u32,
    pub r: [u32; 13],
    pub io: [u32; IO_PLACES],
}

impl Record {
    /// "Fresh means all zero."
    pub fn fresh() -> Record {
        Record {
            status: 0,
            flag: 0,
            pc: 0,
            age: 0,
            left: 0,
            sector: 0,
            buffer: 0,
            r: [0; 13],
            io: [0; IO_PLACES],
        }
    }
}

/// The I/O numbers of the saved record: "then I/O 0 to 17, 20, 21 in their widths".
const SAVED_IO: [usize; 20] = [
    0, 1, 2, 3, 4, 5, 6, 7, 8, 9, 10, 11, 12, 13, 14, 15, 16, 17, 20, 21,
];

/// The width of a saved I/O register.
fn io_bits(number: usize) -> u32 {
    IO[number].expect("a listed I/O register").1
}

/// Document 01's soundness, which edition 1 keeps (D10): "A record is sound when each field fits,
/// status is at most 5, left at most 1024, and left > 0 exactly when diskstatus = 1 and exactly
/// when diskcmd is 1 or 2, else diskcmd is 0."
fn is_sound_by_document_01(record: &Record) -> bool {
    // "each field fits"
    let mut fits = record.flag <= 1 && record.pc <= 4095 && record.age <= AGE_LIMIT;
    for number in SAVED_IO {
        fits = fits && low_bits(record.io[number], io_bits(number)) == record.io[number];
    }
    // Places that no saved field has are "fields of 0 bits: sound only where they hold 0" (S1).
    fits = fits && record.io[18] == 0 && record.io[19] == 0 && record.io[MONITORCMD] == 0;

    let busy = is_busy(record);
    let diskcmd = record.io[DISKCMD];
    fits && record.status <= 5
        && record.left <= DISK_CYCLES
        && busy == (record.io[DISKSTATUS] == 1)
        && busy == (diskcmd == 1 || diskcmd == 2)
        && (busy || diskcmd == 0)
}

/// "left > 0"
fn is_busy(record: &Record) -> bool {
    record.left > 0
}

/// "both zero when free"; "While busy the buffer is at most 3968; soundness covers all of this."
/// The registers disksector and diskbuffer don't matter (D8).
pub fn is_sound(record: &Record) -> bool {
    let command_fits = if is_busy(record) {
        (record.sector as usize) < DISK_SECTORS && record.buffer <= LAST_DISKBUFFER
    } else {
        record.sector == 0 && record.buffer == 0
    };
    is_sound_by_document_01(record) && command_fits
}

/// Appends the low `count` bits of `value`, "most significant first".
fn put(bits: &mut Vec<u8>, value: u64, count: u32) {
    for place in (0..count).rev() {
        bits.push(((value >> place) & 1) as u8);
    }
}

/// Takes the next `count` bits from `bits`, most significant first.
fn take(bits: &[u8], at: &mut usize, count: u32) -> u64 {
    let mut value = 0;
    for _ in 0..count {
        value = value * 2 + bits[*at] as u64;
        *at += 1;
    }
    value
}

/// The bits of a record in an edition: "bit-packed, most significant first: edition 8 (is 1),
/// status 3, flag 1, PC 12, age 40, left 11, R3 to R15, then I/O 0 to 17, 20, 21 in their widths:
/// 728 bits." In edition 2, "after `left` come that sector (7 bits) and buffer (12) … and five zero
/// bits at the end".
fn bits_of(record: &Record, edition: u64) -> Vec<u8> {
    let mut bits = Vec::new();
    put(&mut bits, edition, 8);
    put(&mut bits, record.status as u64, 3);
    put(&mut bits, record.flag as u64, 1);
    put(&mut bits, record.pc as u64, 12);
    put(&mut bits, record.age, 40);
    put(&mut bits, record.left as u64, 11);
    if edition == 2 {
        put(&mut bits, record.sector as u64, 7);
        put(&mut bits, record.buffer as u64, 12);
    }
    for value in record.r {
        put(&mut bits, value as u64, 32);
    }
    for number in SAVED_IO {
        put(&mut bits, record.io[number] as u64, io_bits(number));
    }
    if edition == 2 {
        put(&mut bits, 0, 5);
    }
    bits
}

/// Puts bits into bytes that they fill.
fn fill(bytes: &mut [u8], bits: &[u8]) {
    assert_eq!(bits.len(), 8 * bytes.len());
    for (byte, eight) in bytes.iter_mut().zip(bits.chunks(8)) {
        *byte = eight.iter().fold(0, |value, bit| value * 2 + bit);
    }
}

/// Saves a record into `bytes`: question 1 (any length but 94, S3 and D12), then 13.
pub fn save(record: &Record, bytes: &mut [u8]) -> Result<(), Refusal> {
    if bytes.len() != RECORD_BYTES {
        return Err(Refusal::new(1, 0));
    }
    if !is_sound(record) {
        return Err(Refusal::new(13, 0));
    }
    fill(bytes, &bits_of(record, 2));
    Ok(())
}

/// A record's bytes in edition 1, sector and buffer left out. Nothing saves so any more ("Saving
/// writes edition 2 only", D12); tests read such bytes.
pub fn edition_1(record: &Record) -> [u8; EDITION_1_BYTES] {
    let mut bytes = [0; EDITION_1_BYTES];
    fill(&mut bytes, &bits_of(record, 1));
    bytes
}

/// The answer of reading a record. "A no gives the number and a place; … a record reader the fresh
/// one".
#[derive(Clone, Debug, PartialEq, Eq)]
pub struct ReadAnswer {
    pub refusal: Option<Refusal>,
    pub record: Record,
}

/// Reads a saved record: "a length other than 91 or 94 (1), then an edition that isn't that
/// length's (14), an unsound record (13), a busy edition 1 (20)."
pub fn read(bytes: &[u8]) -> ReadAnswer {
    let refused = |number| ReadAnswer {
        refusal: Some(Refusal::new(number, 0)),
        record: Record::fresh(),
    };
    if bytes.len() != EDITION_1_BYTES && bytes.len() != RECORD_BYTES {
        return refused(1);
    }
    let mut bits = Vec::new();
    for byte in bytes {
        put(&mut bits, *byte as u64, 8);
    }
    let mut at = 0;
    let edition = take(&bits, &mut at, 8);
    let edition_of_that_length = if bytes.len() == RECORD_BYTES { 2 } else { 1 };
    if edition != edition_of_that_length {
        return refused(14);
    }
    // Edition 1 has neither sector nor buffer: they are 0 (D11).
    let mut record = Record::fresh();
    record.status = take(&bits, &mut at, 3) as u32;
    record.flag = take(&bits, &mut at, 1) as u32;
    record.pc = take(&bits, &mut at, 12) as u32;
    record.age = take(&bits, &mut at, 40);
    record.left = take(&bits, &mut at, 11) as u32;
    if edition == 2 {
        record.sector = take(&bits, &mut at, 7) as u32;
        record.buffer = take(&bits, &mut at, 12) as u32;
    }
    for number in 0..13 {
        record.r[number] = take(&bits, &mut at, 32) as u32;
    }
    for number in SAVED_IO {
        record.io[number] = take(&bits, &mut at, io_bits(number)) as u32;
    }
    if edition == 2 {
        // "five zero bits at the end": another value there is 13 (D9).
        if take(&bits, &mut at, 5) != 0 || !is_sound(&record) {
            return refused(13);
        }
    } else {
        if !is_sound_by_document_01(&record) {
            return refused(13);
        }
        if is_busy(&record) {
            return refused(20);
        }
    }
    assert_eq!(at, bits.len());
    ReadAnswer {
        refusal: None,
        record,
    }
}
