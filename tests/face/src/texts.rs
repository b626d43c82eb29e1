//! Random texts: assembly, memory files, irq2 files; good for the most part.

use crate::random::Random;
use crate::{Numbers, IO_0, R3};
use reference::names::{DISKBUFFER, DISKCMD, DISKSECTOR, DISKSTATUS, OPS, REGISTERS, TIMERCURRENT, TIMERMAX};

const IMMEDIATES: [&str; 13] = ["0", "1", "-1", "7", "2047", "0000002047", "-2048", "0xFFF", "0x800", "0x7ff", "-0", "0000000012", "0x00000ABC"];
const ADDRESSES: [&str; 5] = ["0", "1", "4095", "0xFFF", "-0"];
const DATA: [&str; 9] = ["0", "-1", "5", "4294967295", "-2147483648", "0xFFFFFFFF", "0x80000000", "2147483647", "0xabcDEF01"];
const NO_NUMBERS: [&str; 23] = [
    "2048", "0000002048", "3000", "4095", "4096", "-2049", "0x1000", "4294967296", "-2147483649", "0X1", "12345678901", "0x123456789", "+1", "--1", "-0x1", "0x", "-", "1a", "0b1000000000000", "0b", "0B1", "-0b1", "0b1_0",
];

/// One of these numbers, or a binary one of up to so many digits; now and then no number, or one that is out of range at this place or at another.
fn number(r: &mut Random, good: &[&'static str], bits: u64) -> String {
    if r.once_in(80) {
        r.one(&NO_NUMBERS).to_string()
    } else if r.once_in(8) {
        binary(r, bits)
    } else {
        r.one(good).to_string()
    }
}

/// 0b and up to so many binary digits, now and then up to 34; now and then with digits 2 among them.
fn binary(r: &mut Random, bits: u64) -> String {
    let (most, digits) = (if r.once_in(40) { 34 } else { bits }, if r.once_in(100) { b"012".as_slice() } else { b"01" });
    let count = 1 + r.below(most);
    let digits = (0..count).map(|_| digits[r.below(digits.len() as u64) as usize] as char);
    "0b".chars().chain(digits).collect()
}

fn immediate(r: &mut Random, labels: u64) -> String {
    if labels > 0 && r.once_in(2) {
        let n = if r.once_in(100) { labels } else { r.below(labels) };
        format!("L{n}")
    } else {
        number(r, &IMMEDIATES, 12)
    }
}

fn blanks(r: &mut Random) -> &'static str {
    if r.once_in(4) {
        r.one(&["  ", "\t", "\r", " \t "])
    } else {
        r.one(&["", " "])
    }
}

fn register(r: &mut Random) -> &'static str {
    if r.once_in(150) {
        r.one(&["$t3", "$T0", "$15", "$", "zero", "$fp"])
    } else {
        r.one(&REGISTERS)
    }
}

fn instruction(r: &mut Random, labels: u64) -> String {
    let op = if r.once_in(80) { r.one(&["foo", "ADD", "9add", "mul"]) } else { r.one(&OPS) };
    let mut line = format!("{op}{} ", blanks(r));
    for _ in 0..4 {
        line += &format!("{}{},{}", register(r), blanks(r), blanks(r));
    }
    line + &format!("{},{}{}", immediate(r, labels), blanks(r), immediate(r, labels))
}

/// An assembly text of up to some lines.
pub fn assembly(r: &mut Random, most_lines: u64) -> Vec<u8> {
    let (labels, lines) = (r.below(10), r.below(most_lines));
    let mut next = 0;
    let mut text = String::new();
    for _ in 0..lines {
        if next < labels && r.once_in(3) {
            let n = if r.once_in(60) { 0 } else { next };
            next += 1;
            text += &format!("{}L{n}:{}", blanks(r), if r.once_in(2) { "\n" } else { blanks(r) });
        }
        text += &match r.below(6) {
            0 => format!(".word {}{} {}", number(r, &ADDRESSES, 12), blanks(r), number(r, &DATA, 32)),
            1 => blanks(r).to_string(),
            _ => instruction(r, labels),
        };
        if r.once_in(4) {
            text += "# a comment: L9: .word";
        }
        text += "\n";
    }
    for n in next..labels {
        text += &format!("L{n}:\n");
    }
    let mut bytes = text.into_bytes();
    r.damage(&mut bytes, b" \t\r,:#$-0xb12aL.\n");
    if r.once_in(4) {
        bytes.pop();
    }
    bytes
}

/// A memory file of so many digits a line and up to `most` lines.
pub fn memory_file(r: &mut Random, digits: usize, most: u64) -> Vec<u8> {
    let lines = if r.once_in(4) { most + r.below(3) } else { r.below(most + 1).min(r.below(200)) };
    let mut text = Vec::new();
    for _ in 0..lines {
        for _ in 0..digits {
            text.push(b"0123456789ABCDEFabcdef"[r.below(22) as usize]);
        }
        text.push(b'\n');
    }
    r.damage(&mut text, b"0aG \n\r");
    if r.once_in(3) {
        text.pop();
    }
    text
}

/// An irq2 file.
pub fn irq2_file(r: &mut Random) -> Vec<u8> {
    let mut text = Vec::new();
    let mut cycle = 0;
    for _ in 0..r.below(20) {
        cycle += if r.once_in(40) { 0 } else { 1 + r.any(36) };
        let zeros = if r.once_in(5) { "00" } else { "" };
        text.extend_from_slice(format!("{zeros}{cycle}\n").as_bytes());
    }
    if r.once_in(10) {
        text.extend_from_slice(r.one(&["1099511627774\n", "1099511627775\n", "10000000000000\n", "\n"]).as_bytes());
    }
    r.damage(&mut text, b"0198 \n\r-");
    if r.once_in(3) {
        text.pop();
    }
    text
}

/// The words of a random program: mostly known opcodes, small addresses and I/O numbers, so that it runs for some cycles.
pub fn program(r: &mut Random, length: usize) -> Vec<u64> {
    let mut image = vec![0; 4096];
    for (at, word) in image.iter_mut().enumerate().take(length) {
        let op = match r.below(40) {
            0 => r.below(256),
            1..=9 => 19 + r.below(2),
            10..=15 => 16 + r.below(2),
            _ => r.below(19),
        };
        let near = (at as u64 + r.below(6)) % 4096;
        let imm = |r: &mut Random| match r.below(6) {
            0 => r.below(4096),
            1 => near,
            2 => r.one(&[&0u64, &1, &2, &0xFFF, &0x800, &0x7FF]) + 0,
            _ => r.below(23),
        };
        // Addresses are often immediates, so that few cycles fault.
        let (rs, rt) = if r.once_in(3) { (r.below(16), r.below(16)) } else { (1 + r.below(2), 0) };
        let (rd, rm) = (r.below(16), if (9..=15).contains(&op) { 1 + r.below(2) } else { r.below(16) });
        *word = op << 40 | rd << 36 | rs << 32 | rt << 28 | rm << 24 | imm(r) << 12 | imm(r);
        if r.once_in(4) {
            *word |= r.next() << 48;
        }
    }
    image
}

/// The words of a program that keeps the disk at work: a loop with commands, outs to disksector and diskbuffer, busy or not, and stores and loads near the buffers, which lie
/// from 0 to 2047, now and then with any other instruction among them.
pub fn disk_program(r: &mut Random, length: usize) -> Vec<u64> {
    let mut image = program(r, length);
    let (imm1, imm2, zero) = (1, 2, 0);
    let word = |op: u64, rd: u64, rs: u64, rt: u64, rm: u64, a: u64, b: u64| op << 40 | rd << 36 | rs << 32 | rt << 28 | rm << 24 | a << 12 | b;
    let (lw, sw, input, output, beq) = (16, 17, 19, 20, 9);
    for at in 0..length {
        let register = 3 + r.below(13);
        let address = if r.once_in(2) { r.below(160) } else { r.below(2048) };
        image[at] = match r.below(16) {
            0 | 1 => word(output, zero, imm1, zero, imm2, DISKCMD as u64, 1 + r.below(2)),
            2 => word(output, zero, imm1, zero, register, DISKCMD as u64, 0),
            3 => word(output, zero, imm1, zero, imm2, DISKSECTOR as u64, r.below(128)),
            4 => word(output, zero, imm1, zero, imm2, DISKBUFFER as u64, address),
            // Above 3968 it is the register's only, as long as the disk is busy.
            5 if r.once_in(4) => {
                let near = if r.once_in(2) { 3967 + r.below(4) } else { 3960 + r.below(136) };
                word(output, zero, imm1, zero, imm2, DISKBUFFER as u64, near)
            }
            5 | 6 => word(input, register, imm1, zero, zero, 14 + r.below(4), 0),
            7..=10 => word(sw, register, imm1, zero, register, address, 0),
            11..=13 => word(lw, register, imm1, zero, register, address, 0),
            14 => word(0, register, register, imm1, zero, r.below(4096), 0),
            _ => image[at],
        };
    }
    if length > 0 {
        image[length - 1] = word(beq, zero, zero, zero, imm1, 0, 0);
    }
    image
}

/// Sets the numbers of the disk: busy with a command for any sector and buffer, whatever disksector and diskbuffer hold; now and then near or past the limits.
pub fn make_busy(r: &mut Random, n: &mut Numbers) {
    n[4] = match r.below(4) {
        0 => 1 + r.below(9),
        1 => 1016 + r.below(9),
        _ => 1 + r.below(1024),
    };
    (n[IO_0 + DISKCMD], n[IO_0 + DISKSTATUS]) = (1 + r.below(2), 1);
    n[5] = if r.once_in(10) { 126 + r.below(3) } else { r.below(128) };
    n[6] = if r.once_in(10) { 3966 + r.below(4) } else { r.below(3969) };
}

/// A record, sound for the most part, with interrupts, timer and disk at work.
pub fn record(r: &mut Random) -> Numbers {
    let mut n = [0u64; 40];
    if r.once_in(8) {
        return n;
    }
    n[0] = if r.once_in(12) { r.below(6) } else { 0 };
    n[1] = r.below(2);
    n[2] = if r.once_in(2) { r.below(64) } else { r.below(4096) };
    n[3] = match r.below(8) {
        0 => (1 << 40) - 1 - r.below(6),
        1 => r.next() >> 24,
        // Just below a number with one digit more.
        2 => 10u64.pow(1 + r.below(12) as u32) - r.below(6),
        _ => r.below(3000),
    };
    for i in R3..R3 + 13 {
        n[i] = r.any(32);
    }
    let widths = [1, 1, 1, 1, 1, 1, 12, 12, 32, 32, 32, 1, 32, 32, 0, 7, 12, 0, 16, 8];
    for (i, bits) in widths.iter().enumerate() {
        n[IO_0 + i] = r.any(*bits).min((1u64 << bits) - 1);
    }
    if r.once_in(3) {
        n[IO_0 + TIMERMAX] = n[IO_0 + TIMERCURRENT];
    }
    if r.once_in(3) {
        make_busy(r, &mut n);
    }
    if r.once_in(10) {
        let at = r.below(40) as usize;
        n[at] = r.any(64);
    }
    n
}

/// A record that is sound in a run or a save.
pub fn sound_record(r: &mut Random, is_wanted: impl Fn(&Numbers) -> bool) -> Numbers {
    loop {
        let n = record(r);
        if is_wanted(&n) && crate::record_of(&n).is_some_and(|record| reference::record::is_sound(&record)) {
            return n;
        }
    }
}

/// The bytes of a saved record of either edition, good or damaged: bits changed, the edition another of 0 to 3, bytes cut off or added; or any bytes behind such an edition.
pub fn saved_record(r: &mut Random) -> Vec<u8> {
    let mut n = record(r);
    if r.once_in(3) {
        make_busy(r, &mut n);
    }
    let mut record = crate::record_of(&n).unwrap_or_else(reference::record::Record::fresh);
    if r.once_in(12) {
        // Unsound in both editions.
        record.status = 6 + r.below(2) as u32;
    }
    let mut bytes = match r.below(8) {
        0 => (0..[91, 94][r.below(2) as usize]).map(|_| r.next() as u8).collect(),
        1..=3 => reference::record::edition_1(&record).to_vec(),
        _ => {
            let mut bytes = vec![0; 94];
            let _ = reference::record::save(&record, &mut bytes);
            bytes
        }
    };
    for _ in 0..r.below(3) {
        let at = r.below(bytes.len() as u64) as usize;
        bytes[at] ^= 1 << r.below(8);
    }
    if r.once_in(20) {
        *bytes.last_mut().expect("a byte") |= 1 + r.below(31) as u8;
    }
    if r.once_in(6) {
        let length = if r.once_in(2) { [91, 94][r.below(2) as usize] } else { [0, 1, 90, 92, 93, 95, r.below(200) as usize][r.below(7) as usize] };
        bytes.resize(length, 0);
    }
    if r.once_in(6) && !bytes.is_empty() {
        bytes[0] = r.below(4) as u8;
    }
    bytes
}

/// A rising list of irq2 cycles near an age, now and then not rising.
pub fn irq2(r: &mut Random, age: u64) -> Vec<u64> {
    let mut list = Vec::new();
    let mut cycle = age.saturating_sub(r.below(10));
    for _ in 0..r.below(12) {
        cycle = cycle.saturating_add(1 + r.below(9));
        list.push(cycle);
    }
    if list.len() > 1 && r.once_in(25) {
        let at = 1 + r.below(list.len() as u64 - 1) as usize;
        list[at] = list[at - 1];
    }
    list
}
