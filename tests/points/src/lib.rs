//! The calls of the proved library, with the names and answers of the second implementation (`plain`). What is no call, as the plain machine of demand 3 and the E line, is `plain`'s.

pub use plain::{machine, names, simlog, text, Refusal};
pub use plain::{AGE_LIMIT, DATA_WORDS, DISK_SECTORS, DISK_WORDS, EDITION_1_BYTES, FRAME_BYTES, IMAGE_WORDS, LISTED_WORDS, LOW_48_BITS, RECORD_BYTES, SECTOR_WORDS, SOURCE_BYTES};

/// What a call told as a result.
fn result(told: face::Told) -> Result<usize, Refusal> {
    match told.number {
        0 => Ok(told.count as usize),
        number => Err(Refusal::new(number, told.place as usize)),
    }
}

/// A reader of a memory.
macro_rules! reader {
    ($name:ident, $word:ty) => {
        pub fn $name(text: &[u8], words: &mut [$word]) -> Result<(), Refusal> {
            result(face::$name(text, words)).map(|_| ())
        }
    };
}

/// A writer of a memory.
macro_rules! writer {
    ($name:ident, $word:ty) => {
        pub fn $name(words: &[$word], text: &mut [u8]) -> Result<usize, Refusal> {
            result(face::$name(words, text))
        }
    };
}

pub mod assembler {
    use super::{result, Refusal};

    pub fn assemble(source: &[u8], image: &mut [u64], data: &mut [u32]) -> Result<(), Refusal> {
        result(face::assemble(source, image, data)).map(|_| ())
    }
}

pub mod lister {
    use super::{result, Refusal};

    pub fn list(part: &[u64], text: &mut [u8]) -> Result<usize, Refusal> {
        result(face::list(part, text))
    }
}

pub mod files {
    use super::{result, Refusal};

    reader!(read_image, u64);
    reader!(read_data, u32);
    reader!(read_disk, u32);
    reader!(read_frame, u8);

    pub fn read_irq2(text: &[u8], list: &mut [u64]) -> Result<usize, Refusal> {
        result(face::read_irq2(text, list))
    }

    writer!(write_image, u64);
    writer!(write_data, u32);
    writer!(write_frame, u8);

    pub fn write_disk(disk: &[u32], first: usize, sectors: usize, text: &mut [u8]) -> Result<usize, Refusal> {
        result(face::write_disk(disk, first as u64, sectors as u64, text))
    }
}

pub mod hex {
    use super::{result, Refusal};

    reader!(read_hex_data, u32);
    reader!(read_hex_disk, u32);
    writer!(write_hex_data, u32);
    writer!(write_hex_disk, u32);
}

pub mod record {
    use super::Refusal;
    pub use plain::record::{edition_1, is_sound, ReadAnswer, Record};

    /// The 40 numbers have no place for the I/O registers 18, 19 and 22: a record that holds something there can't be handed over.
    pub(crate) fn can_be_lent(record: &Record) -> bool {
        [18, 19, 22].iter().all(|io| record.io[*io] == 0)
    }

    pub fn save(record: &Record, bytes: &mut [u8]) -> Result<(), Refusal> {
        if !can_be_lent(record) {
            return plain::record::save(record, bytes);
        }
        match face::save(&face::numbers_of(record), bytes) {
            0 => Ok(()),
            number => Err(Refusal::new(number, 0)),
        }
    }

    pub fn read(bytes: &[u8]) -> ReadAnswer {
        let mut numbers = [0xA5; 40];
        let number = face::load(bytes, &mut numbers);
        ReadAnswer { refusal: (number != 0).then(|| Refusal::new(number, 0)), record: face::record_of(&numbers).expect("fields that fit") }
    }
}

pub mod run {
    use super::record::{can_be_lent, Record};
    use super::Refusal;
    pub use plain::run::{RunAnswer, AGE_AT_LIMIT, BUDGET_SPENT, LOG_FULL, STATUS_NOT_0};

    #[allow(clippy::too_many_arguments)]
    pub fn run(record: &Record, image: &[u64], data: &mut [u32], disk: &mut [u32], frame: &mut [u8], irq2: &[u64], budget: u64, log: &mut [u8]) -> RunAnswer {
        if !can_be_lent(record) {
            return plain::run::run(record, image, data, disk, frame, irq2, budget, log);
        }
        let mut lent = face::Lent {
            record: face::numbers_of(record).to_vec(),
            image: image.to_vec(),
            memory: data.to_vec(),
            disk: disk.to_vec(),
            frame: frame.to_vec(),
            log: log.to_vec(),
            report: vec![0xA5; 3],
        };
        let number = face::run(&mut lent, irq2, budget);
        data.copy_from_slice(&lent.memory);
        disk.copy_from_slice(&lent.disk);
        frame.copy_from_slice(&lent.frame);
        log.copy_from_slice(&lent.log);
        RunAnswer {
            refusal: (number != 0).then(|| Refusal::new(number, 0)),
            record: face::record_of(&lent.record).expect("fields that fit"),
            cycles: lent.report[0],
            log_bytes: lent.report[1] as usize,
            reason: lent.report[2] as u32,
        }
    }
}
