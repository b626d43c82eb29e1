//! The program `simlog`.

use crate::files::read_image;
use crate::record::Record;
use crate::run::run;
use crate::{Refusal, DATA_WORDS, DISK_WORDS, FRAME_BYTES, IMAGE_WORDS};

/// "budget 100,000 cycles"
pub const SIMLOG_BUDGET: u64 = 100_000;
/// "At most 231 bytes are logged per cycle."
pub const LOG_BYTES_PER_CYCLE: usize = 231;

/// "milliseconds = age×125/128 rounded to nearest, halves up" (X3)
pub fn milliseconds(age: u64) -> u64 {
    (age * 125 + 64) / 128
}

/// "E: status, age in decimal, milliseconds"
pub fn line_e(record: &Record) -> String {
    format!(
        "E {} {} {}\n",
        record.status,
        record.age,
        milliseconds(record.age)
    )
}

/// "A refused file prints only N, number, line."
pub fn line_n(refusal: Refusal) -> String {
    format!("N {} {}\n", refusal.number, refusal.place)
}

/// What simlog prints: "It reads an instruction file from standard input, other memories zero, no
/// irq2 cycles, budget 100,000 cycles."
pub fn simlog(input: &[u8]) -> Vec<u8> {
    let mut image = vec![0; IMAGE_WORDS];
    if let Err(refusal) = read_image(input, &mut image) {
        return line_n(refusal).into_bytes();
    }
    let mut data = vec![0; DATA_WORDS];
    let mut disk = vec![0; DISK_WORDS];
    let mut frame = vec![0; FRAME_BYTES];
    let mut log = vec![0; SIMLOG_BUDGET as usize * LOG_BYTES_PER_CYCLE];
    let answer = run(
        &Record::fresh(),
        &image,
        &mut data,
        &mut disk,
        &mut frame,
        &[],
        SIMLOG_BUDGET,
        &mut log,
    );
    log.truncate(answer.log_bytes);
    log.extend_from_slice(line_e(&answer.record).as_bytes());
    log
}
