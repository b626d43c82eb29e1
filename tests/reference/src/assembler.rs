//! The assembler: questions 1 to 8.

use crate::machine::{encode, Instruction};
use crate::names::{OPS, REGISTERS};
use crate::text::{binary_value, decimal_value, hex_value, lines};
use crate::{Refusal, DATA_WORDS, IMAGE_WORDS, SOURCE_BYTES};
use std::collections::{HashMap, HashSet};

/// A number: its value, and whether it is written in decimal.
struct Number {
    value: i64,
    decimal: bool,
}

/// An immediate: a number or a used label.
enum Immediate {
    Number(Number),
    Label(String),
}

/// "Instruction: `op rd, rs, rt, rm, imm1, imm2`", right in form only: op and registers may be
/// unknown, numbers out of range, labels undefined.
struct Written {
    op: String,
    registers: Vec<String>,
    immediates: Vec<Immediate>,
}

/// "A line is an optional `label:`, an optional instruction, an optional `#` comment; or `.word
/// address data` and a comment."
enum Line {
    Code {
        label: Option<String>,
        instruction: Option<Written>,
    },
    Word {
        address: Number,
        data: Number,
    },
}

/// "Blanks (space, tab, CR)".
fn is_blank(byte: u8) -> bool {
    byte == b' ' || byte == b'\t' || byte == b'\r'
}

/// The text without the blanks at its two ends.
fn without_blanks_around(mut text: &[u8]) -> &[u8] {
    while !text.is_empty() && is_blank(text[0]) {
        text = &text[1..];
    }
    while !text.is_empty() && is_blank(text[text.len() - 1]) {
        text = &text[..text.len() - 1];
    }
    text
}

/// The letters and digits at the start of a text, and the rest.
fn split_after_letters_and_digits(text: &[u8]) -> (&[u8], &[u8]) {
    let mut length = 0;
    while length < text.len() && text[length].is_ascii_alphanumeric() {
        length += 1;
    }
    text.split_at(length)
}

fn string(text: &[u8]) -> String {
    String::from_utf8(text.to_vec()).expect("bytes below 127")
}

/// "a label is a letter, then letters or digits, 50 at most"
fn label_form(token: &[u8]) -> Option<String> {
    let right = !token.is_empty()
        && token.len() <= 50
        && token[0].is_ascii_alphabetic()
        && token.iter().all(|byte| byte.is_ascii_alphanumeric());
    right.then(|| string(token))
}

/// "a register is `$` and one or more letters or digits"
fn register_form(token: &[u8]) -> Option<String> {
    let right = token.len() >= 2
        && token[0] == b'$'
        && token[1..].iter().all(|byte| byte.is_ascii_alphanumeric());
    right.then(|| string(token))
}

/// "Numbers: decimal of 1 to 10 digits, `-` allowed, or 0x and 1 to 8 digits of either case."
/// Document 02 (i): "A number may also be 0b and 1 to 32 binary digits, unsigned".
fn number_form(token: &[u8]) -> Option<Number> {
    if let Some(digits) = token.strip_prefix(b"0x") {
        if digits.len() > 8 {
            return None;
        }
        return hex_value(digits).map(unsigned);
    }
    if let Some(digits) = token.strip_prefix(b"0b") {
        if digits.len() > 32 {
            return None;
        }
        return binary_value(digits).map(unsigned);
    }
    let (negative, digits) = match token.strip_prefix(b"-") {
        Some(digits) => (true, digits),
        None => (false, token),
    };
    if digits.len() > 10 {
        return None;
    }
    let value = decimal_value(digits)? as i64;
    Some(Number {
        value: if negative { -value } else { value },
        decimal: true,
    })
}

/// A number that is not written in decimal.
fn unsigned(value: u64) -> Number {
    Number {
        value: value as i64,
        decimal: false,
    }
}

/// An immediate is a number or a label (A12).
fn immediate_form(token: &[u8]) -> Option<Immediate> {
    match number_form(token) {
        Some(number) => Some(Immediate::Number(number)),
        None => label_form(token).map(Immediate::Label),
    }
}

/// "`op rd, rs, rt, rm, imm1, imm2`. Blanks may stand around tokens; one must stand after the op".
/// `text` has no blanks around it.
fn instruction_form(text: &[u8]) -> Option<Written> {
    // "An op has a label's form"
    let (op, rest) = split_after_letters_and_digits(text);
    let op = label_form(op)?;
    // "one must stand after the op"
    if rest.is_empty() || !is_blank(rest[0]) {
        return None;
    }
    let operands: Vec<&[u8]> = rest
        .split(|byte| *byte == b',')
        .map(without_blanks_around)
        .collect();
    if operands.len() != 6 {
        return None;
    }
    let mut registers = Vec::new();
    for operand in &operands[..4] {
        registers.push(register_form(operand)?);
    }
    let mut immediates = Vec::new();
    for operand in &operands[4..] {
        immediates.push(immediate_form(operand)?);
    }
    Some(Written {
        op,
        registers,
        immediates,
    })
}

/// Question 2: "at most 500 bytes before the LF or the end, all blanks or 33 to 126?"
fn bytes_are_right(line: &[u8]) -> bool {
    line.len() <= 500
        && line
            .iter()
            .all(|byte| is_blank(*byte) || (33..=126).contains(byte))
}

/// Question 3: "The line's form?"
fn line_form(line: &[u8]) -> Option<Line> {
    // No token holds a `#`, so the first one begins the comment.
    let code = line.split(|byte| *byte == b'#').next().unwrap_or(line);
    let code = without_blanks_around(code);

    // "or `.word address data` and a comment"; "one must stand after … `.word` and its address".
    if code.starts_with(b".") {
        let tokens: Vec<&[u8]> = code
            .split(|byte| is_blank(*byte))
            .filter(|token| !token.is_empty())
            .collect();
        if tokens.len() != 3 || tokens[0] != b".word" {
            return None;
        }
        return Some(Line::Word {
            address: number_form(tokens[1])?,
            data: number_form(tokens[2])?,
        });
    }

    // "an optional `label:`": the colon stands right after the label (A4).
    let (first, rest) = split_after_letters_and_digits(code);
    let (label, code) = match rest.strip_prefix(b":") {
        Some(rest) => (Some(label_form(first)?), without_blanks_around(rest)),
        None => (None, code),
    };
    // "an optional instruction"
    let instruction = if code.is_empty() {
        None
    } else {
        Some(instruction_form(code)?)
    };
    Some(Line::Code { label, instruction })
}

/// A line that passes 2 and 3, or the number of the question that it does not pass.
fn line_of(line: &[u8]) -> Result<Line, u32> {
    if !bytes_are_right(line) {
        return Err(2);
    }
    line_form(line).ok_or(3)
}

/// The number of a name in a table of names; "Names are case-sensitive".
fn number_of(name: &str, table: &[&str]) -> Option<usize> {
    table.iter().position(|known| *known == name)
}

/// Question 4: "Known op and registers?"
fn names_are_known(instruction: &Written) -> bool {
    number_of(&instruction.op, &OPS).is_some()
        && instruction
            .registers
            .iter()
            .all(|register| number_of(register, &REGISTERS).is_some())
}

/// Question 5 of an instruction: "Immediates run from -2048 to 4095". Document 02 (iv): "A decimal
/// immediate from 2048 to 4095 is now refused, by document 01's range question, number 5.
/// Hexadecimal, binary and labels keep the wider range."
fn immediates_are_in_range(instruction: &Written) -> bool {
    instruction
        .immediates
        .iter()
        .all(|immediate| match immediate {
            Immediate::Number(Number { value, decimal }) => {
                (-2048..=4095).contains(value) && !(*decimal && (2048..=4095).contains(value))
            }
            Immediate::Label(_) => true,
        })
}

/// Question 5 of a `.word`: ".word addresses 0 to 4095, data -2^31 to 2^32-1".
fn word_is_in_range(address: &Number, data: &Number) -> bool {
    (0..=4095).contains(&address.value) && (-(1i64 << 31)..=(1i64 << 32) - 1).contains(&data.value)
}

/// Assembles `source` into `image` and `data`, both 4,096 words: question 1, then for the first bad
/// line the first of 2 to 8 that it does not pass.
pub fn assemble(source: &[u8], image: &mut [u64], data: &mut [u32]) -> Result<(), Refusal> {
    if source.len() > SOURCE_BYTES || image.len() != IMAGE_WORDS || data.len() != DATA_WORDS {
        return Err(Refusal::new(1, 0));
    }

    // The labels "defined on some line that passes 2 and 3", for question 7.
    let mut defined_somewhere = HashSet::new();
    for line in lines(source) {
        if let Ok(Line::Code {
            label: Some(label), ..
        }) = line_of(line)
        {
            defined_somewhere.insert(label);
        }
    }

    // "its value is the count of instructions before it"
    let mut label_values: HashMap<String, usize> = HashMap::new();
    let mut instructions: Vec<Written> = Vec::new();
    // "the later .word of one address wins; the rest is zero"
    let mut words = vec![0u32; DATA_WORDS];

    for (index, line) in lines(source).iter().enumerate() {
        let refused = |number| Err(Refusal::new(number, index + 1));
        // Questions 2 and 3.
        let line = match line_of(line) {
            Ok(line) => line,
            Err(number) => return refused(number),
        };
        match line {
            Line::Word { address, data } => {
                // 5. "Numbers in range?"
                if !word_is_in_range(&address, &data) {
                    return refused(5);
                }
                words[address.value as usize] = data.value as u32;
            }
            Line::Code { label, instruction } => {
                if let Some(instruction) = &instruction {
                    // 4. "Known op and registers?"
                    if !names_are_known(instruction) {
                        return refused(4);
                    }
                    // 5. "Numbers in range?"
                    if !immediates_are_in_range(instruction) {
                        return refused(5);
                    }
                }
                // 6. "Label not defined on an earlier line?"
                if let Some(label) = &label {
                    if label_values.contains_key(label) {
                        return refused(6);
                    }
                }
                // 7. "Used labels defined on some line that passes 2 and 3?"
                if let Some(instruction) = &instruction {
                    for immediate in &instruction.immediates {
                        if let Immediate::Label(used) = immediate {
                            if !defined_somewhere.contains(used) {
                                return refused(7);
                            }
                        }
                    }
                }
                // 8. "Instruction or label address at most 4095, label among the first 1,024?"
                let address = instructions.len();
                if (label.is_some() || instruction.is_some()) && address > 4095 {
                    return refused(8);
                }
                if label.is_some() && label_values.len() >= 1024 {
                    return refused(8);
                }
                if let Some(label) = label {
                    label_values.insert(label, address);
                }
                if let Some(instruction) = instruction {
                    instructions.push(instruction);
                }
            }
        }
    }

    // Every line is good. "the rest is zero"
    image.fill(0);
    for (address, instruction) in instructions.iter().enumerate() {
        image[address] = word_of(instruction, &label_values);
    }
    data.copy_from_slice(&words);
    Ok(())
}

/// The word of an instruction whose names are known and whose labels have values.
fn word_of(instruction: &Written, label_values: &HashMap<String, usize>) -> u64 {
    // "stored modulo 4096"
    let immediate = |which: usize| {
        let value = match &instruction.immediates[which] {
            Immediate::Number(number) => number.value,
            Immediate::Label(used) => label_values[used] as i64,
        };
        value.rem_euclid(4096) as u32
    };
    let register = |which: usize| {
        number_of(&instruction.registers[which], &REGISTERS).expect("a known register")
    };
    encode(Instruction {
        opcode: number_of(&instruction.op, &OPS).expect("a known op") as u32,
        rd: register(0),
        rs: register(1),
        rt: register(2),
        rm: register(3),
        imm1: immediate(0),
        imm2: immediate(1),
    })
}
