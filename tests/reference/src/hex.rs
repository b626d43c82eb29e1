//! Intel HEX for the data memory and the disk: readers and writers (document 02, (ii)).
//!
//! "Word n fills bytes 4n to 4n+3, most significant first. Lines end in LF, with a CR before it
//! allowed on reading. Read types 00 and 01, digits of either case; bytes not named are zero. The
//! last LF may be missing, with that CR or without. Write records of 16 data bytes over the whole
//! memory in capitals, then `:00000001FF`."

use crate::files::hand_over;
use crate::text::{hex_value, lines};
use crate::{Refusal, DATA_WORDS, DISK_WORDS};

/// "types 00": bytes for the memory.
const DATA: u8 = 0;
/// "and 01": the end record.
const END: u8 = 1;

/// A record: its type, its first address and its data bytes.
struct HexRecord {
    kind: u8,
    address: usize,
    data: Vec<u8>,
}

/// The sum of bytes modulo 256.
fn sum_modulo_256(bytes: &[u8]) -> u32 {
    bytes.iter().map(|byte| *byte as u32).sum::<u32>() % 256
}

/// The record of a line that is given without its LF; None for "a wrong form, digit or checksum"
/// (H9).
fn record_of(line: &[u8]) -> Option<HexRecord> {
    // "with a CR before it allowed": one, that of the text's last line too (H6).
    let line = line.strip_suffix(b"\r").unwrap_or(line);
    // "Form: `:` first (nothing before it), an even number of digits" (H9)
    let digits = line.strip_prefix(b":")?;
    if digits.len() % 2 != 0 {
        return None;
    }
    let mut bytes = Vec::new();
    for digit_pair in digits.chunks(2) {
        bytes.push(hex_value(digit_pair)? as u8);
    }
    // Count, address (two), type and checksum; "as many data bytes as the count says" (H9).
    if bytes.len() < 5 || bytes.len() != bytes[0] as usize + 5 {
        return None;
    }
    // "Checksum: all bytes with it are 0 modulo 256." (H9)
    if sum_modulo_256(&bytes) != 0 {
        return None;
    }
    Some(HexRecord {
        kind: bytes[3],
        address: bytes[1] as usize * 256 + bytes[2] as usize,
        data: bytes[4..bytes.len() - 1].to_vec(),
    })
}

/// The bytes of a memory of `room` bytes. "It refuses, at the first bad record and in this order":
/// the questions 17, 18, 19 are asked of one record after the other (H10).
fn read_bytes(text: &[u8], room: usize) -> Result<Vec<u8>, Refusal> {
    // "bytes not named are zero"
    let mut bytes = vec![0; room];
    let mut last_named: Option<usize> = None;
    let all = lines(text);
    for (index, line) in all.iter().enumerate() {
        let line_number = index + 1;
        // "a wrong form, digit or checksum" (17); an empty line is of wrong form (H7).
        let Some(record) = record_of(line) else {
            return Err(Refusal::new(17, line_number));
        };
        // "an end record with data or text after it (17)": any byte after its LF, and the place is
        // the end record's line (H1, H2). Its address may be anything (H3).
        if record.kind == END {
            if !record.data.is_empty() || line_number < all.len() {
                return Err(Refusal::new(17, line_number));
            }
            return Ok(bytes);
        }
        // "another type", whatever its count (H14): 18.
        if record.kind != DATA {
            return Err(Refusal::new(18, line_number));
        }
        // "never for a record without bytes": it names no byte (H4).
        if record.data.is_empty() {
            continue;
        }
        // "a byte past the memory", addresses don't wrap (H5), "or a first address not above the
        // last byte named before it (19)" (H11).
        let end = record.address + record.data.len();
        if end > room || last_named.is_some_and(|last| record.address <= last) {
            return Err(Refusal::new(19, line_number));
        }
        bytes[record.address..end].copy_from_slice(&record.data);
        last_named = Some(end - 1);
    }
    // "or a missing end (18, at the line after the last)" (H8)
    Err(Refusal::new(18, all.len() + 1))
}

/// Reads a text into any number of words; a refused one changes none, a good one sets all (H15).
fn read_words(text: &[u8], words: &mut [u32]) -> Result<(), Refusal> {
    let bytes = read_bytes(text, 4 * words.len())?;
    for (word, four) in words.iter_mut().zip(bytes.chunks(4)) {
        // "Word n fills bytes 4n to 4n+3, most significant first."
        *word = u32::from_be_bytes([four[0], four[1], four[2], four[3]]);
    }
    Ok(())
}

/// Reads a data memory: 4,096 words, else 1 (H13).
pub fn read_hex_data(text: &[u8], data: &mut [u32]) -> Result<(), Refusal> {
    if data.len() != DATA_WORDS {
        return Err(Refusal::new(1, 0));
    }
    read_words(text, data)
}

/// Reads a disk: "the 64 KiB disk", whole, else 1 (H13).
pub fn read_hex_disk(text: &[u8], disk: &mut [u32]) -> Result<(), Refusal> {
    if disk.len() != DISK_WORDS {
        return Err(Refusal::new(1, 0));
    }
    read_words(text, disk)
}

/// A record of type 00 as a line: its digits in capitals and its LF (H12).
fn text_of_record(address: usize, data: &[u8]) -> String {
    let mut bytes = vec![
        data.len() as u8,
        (address / 256) as u8,
        (address % 256) as u8,
        DATA,
    ];
    bytes.extend_from_slice(data);
    // The checksum makes the sum 0 modulo 256.
    bytes.push(((256 - sum_modulo_256(&bytes)) % 256) as u8);
    let mut line = String::from(":");
    for byte in bytes {
        line += &format!("{:02X}", byte);
    }
    line + "\n"
}

/// The text of any number of words, 16,384 at most: "records of 16 data bytes over the whole
/// memory in capitals, then `:00000001FF`", an LF after every line (H12).
fn text_of_words(words: &[u32]) -> String {
    let mut bytes = Vec::new();
    for word in words {
        bytes.extend_from_slice(&word.to_be_bytes());
    }
    let mut whole = String::new();
    for (index, data) in bytes.chunks(16).enumerate() {
        whole += &text_of_record(16 * index, data);
    }
    whole + ":00000001FF\n"
}

/// Writes a data memory: 4,096 words, else 1; "does the whole text fit? 15." (H12, H13)
pub fn write_hex_data(data: &[u32], text: &mut [u8]) -> Result<usize, Refusal> {
    if data.len() != DATA_WORDS {
        return Err(Refusal::new(1, 0));
    }
    hand_over(&text_of_words(data), text)
}

/// Writes a disk: 16,384 words, else 1; then 15 (H12, H13).
pub fn write_hex_disk(disk: &[u32], text: &mut [u8]) -> Result<usize, Refusal> {
    if disk.len() != DISK_WORDS {
        return Err(Refusal::new(1, 0));
    }
    hand_over(&text_of_words(disk), text)
}

#[cfg(test)]
mod tests {
    use super::*;

    /// Words of any number, over the length: what is written reads back, and the bytes after the
    /// last word are past the memory.
    #[test]
    fn any_number_of_words() {
        for count in 0..40 {
            let words: Vec<u32> = (1..=count)
                .map(|n: u32| n.wrapping_mul(0x9E3779B1))
                .collect();
            let text = text_of_words(&words);
            let mut back = vec![0xA5A5_A5A5; words.len()];
            assert_eq!(read_words(text.as_bytes(), &mut back), Ok(()));
            assert_eq!(back, words);
            let records = words.len().div_ceil(4);
            assert_eq!(text.len(), 12 * records + 8 * words.len() + 12);
            // one word less has no place for the last record's bytes
            if count > 0 {
                back.pop();
                let refused = read_words(text.as_bytes(), &mut back);
                assert_eq!(refused, Err(Refusal::new(19, records)));
            }
        }
        assert_eq!(text_of_words(&[]), ":00000001FF\n");
        assert_eq!(
            text_of_words(&[0x01020304]),
            ":0400000001020304F2\n:00000001FF\n"
        );
    }
}
