//! The SIMP lab, written a second time from the papers (documents 01 and 003, and what is built of document 02) and the open points alone.
//!
//! This crate is the other side of differential tests and the source of expected outputs.
//! It follows document 01 in its words and its order. It is plain rather than fast.
//! Names such as A7 or M3 in comments are the open points (OPEN-POINTS.md, OPEN-POINTS-02.md).

pub mod assembler;
pub mod files;
pub mod hex;
pub mod lister;
pub mod machine;
pub mod names;
pub mod record;
pub mod run;
pub mod simlog;
pub mod text;

/// "The instruction image is 4,096 words held in 64 bits"
pub const IMAGE_WORDS: usize = 4096;
/// "The data memory is 4,096 words of 32 bits"
pub const DATA_WORDS: usize = 4096;
/// "the disk 16,384 such words (128 sectors of 128)"
pub const DISK_WORDS: usize = 16_384;
/// "128 sectors"
pub const DISK_SECTORS: usize = 128;
/// "sectors of 128"
pub const SECTOR_WORDS: usize = 128;
/// "the frame 65,536 bytes"
pub const FRAME_BYTES: usize = 65_536;
/// "source up to 262,144 bytes"
pub const SOURCE_BYTES: usize = 262_144;
/// "listed part up to 4,096 words"
pub const LISTED_WORDS: usize = 4096;
/// "The saved record becomes edition 2: … 94 bytes."
pub const RECORD_BYTES: usize = 94;
/// Edition 1, document 01's: "91 bytes, bit-packed"
pub const EDITION_1_BYTES: usize = 91;
/// "age = 2^40-1 (reason 3)"
pub const AGE_LIMIT: u64 = (1 << 40) - 1;
/// "bits above 47 are not read"
pub const LOW_48_BITS: u64 = (1 << 48) - 1;

/// "A no gives the number and a place (line from 1, listed word from 0, else 0)".
#[derive(Clone, Copy, Debug, PartialEq, Eq)]
pub struct Refusal {
    pub number: u32,
    pub place: usize,
}

impl Refusal {
    pub fn new(number: u32, place: usize) -> Refusal {
        Refusal { number, place }
    }
}
