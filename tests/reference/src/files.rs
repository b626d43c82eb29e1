//! Memory files and the irq2 file: readers and writers.
//!
//! "Memory files: one word a line, 12, 8 or 2 hex digits (instructions, words, frame), either
//! case; missing lines are zero. Written: every word of the slice, capitals."

use crate::text::{decimal_value, hex_value, lines};
use crate::{
    Refusal, AGE_LIMIT, DATA_WORDS, DISK_SECTORS, DISK_WORDS, FRAME_BYTES, IMAGE_WORDS,
    LOW_48_BITS, SECTOR_WORDS,
};

/// The words of a memory file for `room` words: "Files, first bad line: a word left for this line?
/// 10. Right digits? 9".
fn read_words(text: &[u8], digits: usize, room: usize) -> Result<Vec<u64>, Refusal> {
    let mut words = Vec::new();
    for (index, line) in lines(text).iter().enumerate() {
        let line_number = index + 1;
        if words.len() == room {
            return Err(Refusal::new(10, line_number));
        }
        if line.len() != digits {
            return Err(Refusal::new(9, line_number));
        }
        match hex_value(line) {
            Some(word) => words.push(word),
            None => return Err(Refusal::new(9, line_number)),
        }
    }
    // "missing lines are zero"
    words.resize(room, 0);
    Ok(words)
}

/// Reads an instruction file (12 digits) into 4,096 words.
pub fn read_image(text: &[u8], image: &mut [u64]) -> Result<(), Refusal> {
    if image.len() != IMAGE_WORDS {
        return Err(Refusal::new(1, 0));
    }
    let words = read_words(text, 12, image.len())?;
    image.copy_from_slice(&words);
    Ok(())
}

/// Reads a data file (8 digits) into 4,096 words.
pub fn read_data(text: &[u8], data: &mut [u32]) -> Result<(), Refusal> {
    if data.len() != DATA_WORDS {
        return Err(Refusal::new(1, 0));
    }
    let words = read_words(text, 8, data.len())?;
    for (place, word) in data.iter_mut().zip(words) {
        *place = word as u32;
    }
    Ok(())
}

/// Reads a disk file (8 digits) into a part of the disk: "parts that … hold whole sectors, at
/// least one; its reader fills such a part". Its length is a multiple of 128 from 128 to 16,384,
/// else 1 (F13).
pub fn read_disk(text: &[u8], part: &mut [u32]) -> Result<(), Refusal> {
    let sectors = part.len() / SECTOR_WORDS;
    if part.len() != sectors * SECTOR_WORDS || !(1..=DISK_SECTORS).contains(&sectors) {
        return Err(Refusal::new(1, 0));
    }
    let words = read_words(text, 8, part.len())?;
    for (place, word) in part.iter_mut().zip(words) {
        *place = word as u32;
    }
    Ok(())
}

/// Reads a frame file (2 digits) into 65,536 bytes.
pub fn read_frame(text: &[u8], frame: &mut [u8]) -> Result<(), Refusal> {
    if frame.len() != FRAME_BYTES {
        return Err(Refusal::new(1, 0));
    }
    let words = read_words(text, 2, frame.len())?;
    for (place, word) in frame.iter_mut().zip(words) {
        *place = word as u8;
    }
    Ok(())
}

/// Reads an irq2 file into `list` and returns the count of its cycles.
///
/// "The irq2 file: one cycle a line, decimal, 1 to 13 digits, below 2^40-1, strictly rising; its
/// reader returns their count and doesn't touch places after them." Per line 10, 11, 12 (F8).
pub fn read_irq2(text: &[u8], list: &mut [u64]) -> Result<usize, Refusal> {
    let mut cycles: Vec<u64> = Vec::new();
    for (index, line) in lines(text).iter().enumerate() {
        let line_number = index + 1;
        // "a word left for this line? 10."
        if cycles.len() == list.len() {
            return Err(Refusal::new(10, line_number));
        }
        // "Right digits? 9 (irq2, with its limit: 11)."
        if line.is_empty() || line.len() > 13 {
            return Err(Refusal::new(11, line_number));
        }
        let cycle = match decimal_value(line) {
            Some(cycle) if cycle < AGE_LIMIT => cycle,
            _ => return Err(Refusal::new(11, line_number)),
        };
        // "irq2 rising? 12."
        if let Some(last) = cycles.last() {
            if cycle <= *last {
                return Err(Refusal::new(12, line_number));
            }
        }
        cycles.push(cycle);
    }
    list[..cycles.len()].copy_from_slice(&cycles);
    Ok(cycles.len())
}

/// Puts a whole text into its room: "does the whole text fit? 15." Places after the text are not
/// touched. Returns the text's length.
pub(crate) fn hand_over(whole: &str, text: &mut [u8]) -> Result<usize, Refusal> {
    if whole.len() > text.len() {
        return Err(Refusal::new(15, 0));
    }
    text[..whole.len()].copy_from_slice(whole.as_bytes());
    Ok(whole.len())
}

/// Writes an instruction file: 4,096 words, "by their low 48 bits" (F11).
pub fn write_image(image: &[u64], text: &mut [u8]) -> Result<usize, Refusal> {
    if image.len() != IMAGE_WORDS {
        return Err(Refusal::new(1, 0));
    }
    let mut whole = String::new();
    for word in image {
        whole += &format!("{:012X}\n", word & LOW_48_BITS);
    }
    hand_over(&whole, text)
}

/// The text of words of 8 digits.
fn text_of_words(words: &[u32]) -> String {
    let mut whole = String::new();
    for word in words {
        whole += &format!("{:08X}\n", word);
    }
    whole
}

/// Writes a data file: 4,096 words.
pub fn write_data(data: &[u32], text: &mut [u8]) -> Result<usize, Refusal> {
    if data.len() != DATA_WORDS {
        return Err(Refusal::new(1, 0));
    }
    hand_over(&text_of_words(data), text)
}

/// Writes `sector_count` sectors of the disk from `first_sector`: "written from parts that start at
/// a sector's first word and hold whole sectors, at least one". Asks 1 of the disk's length, of a
/// count of 0 and of first + count above 128 (F13).
pub fn write_disk(
    disk: &[u32],
    first_sector: usize,
    sector_count: usize,
    text: &mut [u8],
) -> Result<usize, Refusal> {
    if disk.len() != DISK_WORDS
        || sector_count == 0
        || first_sector > DISK_SECTORS
        || sector_count > DISK_SECTORS - first_sector
    {
        return Err(Refusal::new(1, 0));
    }
    let start = first_sector * SECTOR_WORDS;
    let end = (first_sector + sector_count) * SECTOR_WORDS;
    hand_over(&text_of_words(&disk[start..end]), text)
}

/// Writes a frame file: 65,536 bytes.
pub fn write_frame(frame: &[u8], text: &mut [u8]) -> Result<usize, Refusal> {
    if frame.len() != FRAME_BYTES {
        return Err(Refusal::new(1, 0));
    }
    let mut whole = String::new();
    for byte in frame {
        whole += &format!("{:02X}\n", byte);
    }
    hand_over(&whole, text)
}
