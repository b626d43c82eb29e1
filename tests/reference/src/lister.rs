//! The lister.

use crate::files::hand_over;
use crate::machine::{decode, sign_extended};
use crate::names::{LAST_OPCODE, OPS, REGISTERS};
use crate::{Refusal, LISTED_WORDS};

/// Lists a part of an image into `text` and returns the text's length: question 1, then "opcode at
/// most 21? 16. Then … does the whole text fit? 15."
///
/// "The lister writes each word as such a line with one blank after the op and each comma, signed
/// decimal immediates, LF."
pub fn list(part: &[u64], text: &mut [u8]) -> Result<usize, Refusal> {
    if part.len() > LISTED_WORDS {
        return Err(Refusal::new(1, 0));
    }
    let mut whole = String::new();
    for (place, word) in part.iter().enumerate() {
        let i = decode(*word);
        if i.opcode > LAST_OPCODE {
            return Err(Refusal::new(16, place));
        }
        whole += &format!(
            "{} {}, {}, {}, {}, {}, {}\n",
            OPS[i.opcode as usize],
            REGISTERS[i.rd],
            REGISTERS[i.rs],
            REGISTERS[i.rt],
            REGISTERS[i.rm],
            sign_extended(i.imm1),
            sign_extended(i.imm2),
        );
    }
    hand_over(&whole, text)
}
