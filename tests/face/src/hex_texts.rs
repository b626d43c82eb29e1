//! Random Intel HEX texts: good ones, and ones damaged in every way that a question asks about.

use crate::random::Random;

/// A record's bytes: count, address, type, data and the right checksum.
fn record(address: u64, kind: u8, data: &[u8]) -> Vec<u8> {
    let mut bytes = vec![data.len() as u8, (address >> 8) as u8, address as u8, kind];
    bytes.extend_from_slice(data);
    let sum = bytes.iter().fold(0, |sum: u8, byte| sum.wrapping_add(*byte));
    bytes.push(sum.wrapping_neg());
    bytes
}

/// The first address above the bytes that these records name.
fn free_after(records: &[Vec<u8>]) -> u64 {
    let end = |bytes: &Vec<u8>| bytes[1] as u64 * 256 + bytes[2] as u64 + bytes[0] as u64;
    records.iter().filter(|bytes| bytes[0] > 0 && bytes[3] == 0).map(end).max().unwrap_or(0)
}

fn some_bytes(r: &mut Random, count: u64) -> Vec<u8> {
    let same = r.once_in(6).then(|| *r.one(&[&0, &1, &0xFF]));
    (0..count).map(|_| same.unwrap_or(r.next() as u8)).collect()
}

/// A count of bytes: 16, few, many or 255.
fn some_count(r: &mut Random) -> u64 {
    match r.below(8) {
        0 => 255,
        1 | 2 => 1 + r.below(255),
        3 | 4 => 16,
        _ => 1 + r.below(24),
    }
}

/// Records of a good file for a memory of `room` bytes, with gaps and without, some of no bytes; the end record is the last.
fn good_records(r: &mut Random, room: u64) -> Vec<Vec<u8>> {
    let (mut records, mut free) = (Vec::new(), 0);
    let most = match r.below(20) {
        0 => u64::MAX,
        _ => r.below(16),
    };
    let (only_16, gaps) = (r.once_in(3), r.once_in(2));
    if most < 16 && r.once_in(2) {
        free = if r.once_in(2) { room - r.below(300) } else { r.below(room) };
    }
    while (records.len() as u64) < most && free < room {
        if r.once_in(10) {
            // A record without bytes may be anywhere.
            let address = if r.once_in(2) { r.below(65536) } else { free.saturating_sub(r.below(3)) };
            records.push(record(address, 0, &[]));
            continue;
        }
        if gaps && r.once_in(2) {
            free += r.any(room.ilog2()) >> r.below(8);
        }
        let count = if only_16 { 16 } else { some_count(r) }.min(room.saturating_sub(free));
        if count > 0 {
            records.push(record(free, 0, &some_bytes(r, count)));
            free += count;
        }
    }
    let address = if r.once_in(4) { r.below(65536) } else { 0 };
    records.push(record(address, 1, &[]));
    records
}

/// A record of another type.
fn other_type(r: &mut Random) -> Vec<u8> {
    let kind = if r.once_in(3) { 2 + r.below(254) } else { 2 + r.below(4) };
    let (address, count) = (if r.once_in(2) { r.any(16) } else { 0 }, if r.once_in(8) { r.below(256) } else { r.below(5) });
    record(address, kind as u8, &some_bytes(r, count))
}

/// A record with a byte past the memory, by one or by many.
fn past_the_memory(r: &mut Random, room: u64) -> Vec<u8> {
    let count = some_count(r);
    let first = match r.below(3) {
        0 => room - (count - 1),
        1 => room - r.below(count),
        _ => room + r.any(16),
    };
    // The disk's end is the last address that a record can have.
    let first = first.min(65535);
    record(first, 0, &some_bytes(r, count.max(room + 1 - first.min(room)).min(255)))
}

/// A record that can be wrong in several ways at once, checksum included: its questions have an order.
fn any_record(r: &mut Random, room: u64, free: u64) -> Vec<u8> {
    let kind = [0, 0, 1, 2, 4, 5, 0xFF][r.below(7) as usize];
    let address = match r.below(5) {
        0 => free,
        1 => free.saturating_sub(1),
        2 => room.min(65535) - r.below(3),
        3 => 65535,
        _ => r.below(65536),
    };
    let count = [0, 1, 2, 16, 255][r.below(5) as usize];
    let mut bytes = record(address, kind, &some_bytes(r, count));
    if r.once_in(4) {
        wrong_checksum(r, &mut bytes);
    }
    bytes
}

fn wrong_checksum(r: &mut Random, bytes: &mut [u8]) {
    let last = bytes.len() - 1;
    bytes[last] = match r.below(4) {
        0 => bytes[last].wrapping_neg(),
        1 => bytes[last].wrapping_add(1),
        2 => bytes[last] ^ (1 << r.below(8)),
        _ => r.next() as u8,
    };
}

/// Makes one change to the records: most make the file a bad one, some leave it good.
fn change_records(r: &mut Random, records: &mut Vec<Vec<u8>>, room: u64) {
    let end = records.len() - 1;
    // A place before the end record, as often right before it as elsewhere.
    let at = if r.once_in(2) { end } else { r.below(end as u64 + 1) as usize };
    let free = free_after(&records[..at]);
    match r.below(16) {
        0 | 1 => records.insert(at, other_type(r)),
        2 | 3 => records.insert(at, past_the_memory(r, room)),
        4 | 5 => {
            // A first address that is the last byte named, or below it.
            let back = 1 + if r.once_in(2) { 0 } else { r.below(40) };
            let count = some_count(r);
            records.insert(at, record(free.saturating_sub(back), 0, &some_bytes(r, count)));
        }
        6 | 7 => records.truncate(end),
        8 => records[end] = record(r.any(16), 1, &[1, 2, 3, 4, 5][..1 + r.below(5) as usize]),
        9 => records.insert(at, record(r.any(16), 1, &[])),
        10 => {
            let after = if r.once_in(2) { record(0, 1, &[]) } else { any_record(r, room, free) };
            records.push(after);
        }
        11 => {
            let other = r.below(end as u64 + 1) as usize;
            records.swap(at, other);
        }
        12 => records.insert(at, records[at].clone()),
        13 => {
            records.remove(at);
        }
        14 => {
            let bad = any_record(r, room, free);
            records.insert(at, bad);
        }
        // The sum stays right, the count doesn't.
        _ => {
            let checksum = records[at].len() - 1;
            let more = if r.once_in(2) { 1 } else { r.next() as u8 };
            records[at][0] = records[at][0].wrapping_add(more);
            records[at][checksum] = records[at][checksum].wrapping_sub(more);
        }
    }
    if r.once_in(6) && at < records.len() {
        wrong_checksum(r, &mut records[at]);
    }
}

/// A record as a line without its end: digits of either case.
fn line(r: &mut Random, bytes: &[u8], case: u64) -> Vec<u8> {
    let mut line = vec![b':'];
    for byte in bytes {
        for digit in [byte >> 4, byte & 15] {
            let small = case == 1 || case == 2 && r.once_in(2);
            line.push(if small { b"0123456789abcdef" } else { b"0123456789ABCDEF" }[digit as usize]);
        }
    }
    line
}

/// Makes one change to a line, which is then of wrong form or has a wrong digit or checksum for the most part.
fn change_line(r: &mut Random, line: &mut Vec<u8>) {
    let length = line.len() as u64;
    let at = r.below(length + 1) as usize;
    let within = r.below(length) as usize;
    match r.below(12) {
        // The colon missing, twice or another byte.
        0 => {
            line.remove(0);
        }
        1 => line.insert(0, b':'),
        2 => line[0] = *r.one(&[&b';', &b' ', &b'S', &b'0']),
        3 => line.insert(at, *r.one(&[&b' ', &b'\t'])),
        4 => line.insert(at, b'\r'),
        // An odd number of digits, a pair of them more or less.
        5 => line.insert(at, b'0'),
        6 => {
            line.remove(within);
        }
        7 => line.extend_from_slice(b"00"),
        8 => line.truncate(line.len().saturating_sub(2)),
        // A byte that is no digit for a high digit 0: taken as worth 16, it would leave the sum right.
        9 | 10 => {
            let zeros: Vec<usize> = (1..line.len()).step_by(2).filter(|at| line[*at] == b'0').collect();
            if !zeros.is_empty() {
                line[zeros[r.below(zeros.len() as u64) as usize]] = b"Gg@xX :\xB0"[r.below(8) as usize];
            }
        }
        // A byte near the digits, or a digit of another value.
        _ => line[within] = b"xXgG/:@`0189AFaf"[r.below(16) as usize],
    }
}

/// What stands after the end record, or after its line.
const AFTER: [&[u8]; 12] = [b"\n", b"\r\n", b"\r", b" ", b" \n", b"\x1A", b"\0", b":", b":00000001FF", b":00000001FF\n", b"\n\n", b"\xFF"];

/// A text for a memory of `room` bytes: a good one in two of five turns.
pub fn hex_file(r: &mut Random, room: u64) -> Vec<u8> {
    let mut records = good_records(r, room);
    let damage = r.below(15);
    match damage {
        0..=4 => {
            change_records(r, &mut records, room);
            if r.once_in(3) && !records.is_empty() {
                change_records(r, &mut records, room);
            }
        }
        5 => {
            let at = r.below(records.len() as u64) as usize;
            wrong_checksum(r, &mut records[at]);
        }
        _ => {}
    }
    let (case, cr) = (r.below(4), r.below(4));
    let mut lines: Vec<Vec<u8>> = records.iter().map(|bytes| line(r, bytes, case)).collect();
    if damage == 6 {
        let at = r.below(lines.len() as u64) as usize;
        if r.once_in(6) {
            // An empty line.
            lines.insert(at, r.one(&[b"".as_slice(), b" ", b"\t", b"\r", b"  "]).to_vec());
        } else {
            change_line(r, &mut lines[at]);
        }
    }
    let mut text = Vec::new();
    for line in &lines {
        text.extend_from_slice(line);
        text.extend_from_slice(if cr == 1 || cr == 2 && r.once_in(2) { b"\r\n" } else { b"\n" });
    }
    match r.below(6) {
        // Without the last LF, or without its CR too.
        0 => text.truncate(text.len().saturating_sub(1)),
        1 => {
            while text.last().is_some_and(|byte| b"\r\n".contains(byte)) {
                text.pop();
            }
        }
        _ => {}
    }
    match damage {
        7 => damage_text(r, &mut text),
        8 => text.extend_from_slice(r.one(&AFTER)),
        _ => {}
    }
    text
}

/// Makes a change to the whole text: cut off somewhere, a line end that is none, bytes changed, removed or added.
fn damage_text(r: &mut Random, text: &mut Vec<u8>) {
    match r.below(4) {
        0 => text.truncate(r.below(text.len() as u64 + 1) as usize),
        1 => {
            let ends: Vec<usize> = (0..text.len()).filter(|at| text[*at] == b'\n').collect();
            if !ends.is_empty() {
                let at = ends[r.below(ends.len() as u64) as usize];
                let other = r.one(&[b"\r".as_slice(), b"", b"\r\r\n", b"\n\n", b"\n\r", b" \n", b"\r \n", b"\0"]);
                text.splice(at..at + 1, other.iter().copied());
            }
        }
        _ => r.damage(text, b":0aF \r\n\x1A"),
    }
}
