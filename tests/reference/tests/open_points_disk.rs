//! The open points D1 to D14: the disk takes its time.
//!
//! In most tests the command is given in cycle 0, so that the instruction at address n is the one of cycle n, for 4,096 cycles.

mod common;
use common::*;
use reference::machine::PlainMachine;
use reference::names::*;
use reference::record::{edition_1, is_sound, read, save, Record};
use reference::run::run;
use reference::Refusal;

const READ: u32 = 1;
const WRITE: u32 = 2;

/// What stands at a place of the disk and at an address of the data memory before a test.
fn on_disk(place: usize) -> u32 {
    0xD000_0000 + place as u32
}
fn in_data(address: usize) -> u32 {
    0xA000_0000 + address as u32
}

fn no(number: u32) -> Option<Refusal> {
    Some(Refusal { number, place: 0 })
}

/// A lab whose words tell their place, with an out of `command` to diskcmd as its first instruction
/// and disksector and diskbuffer set; all other instructions add zeros.
fn commanding(command: u32, sector: u32, buffer: u32) -> Lab {
    let mut lab = Lab::of(&format!("out $zero, $zero, $imm1, $imm2, 14, {command}"));
    for place in 0..16384 {
        lab.disk[place] = on_disk(place);
    }
    for address in 0..4096 {
        lab.data[address] = in_data(address);
    }
    lab.record.io[DISKSECTOR] = sector;
    lab.record.io[DISKBUFFER] = buffer;
    lab
}

/// One cycle more, and no matter what it logs.
fn one(lab: &mut Lab) {
    assert_eq!(lab.run(1).1.cycles, 1);
}

/// left, sector and buffer.
fn disk_fields(record: &Record) -> (u32, u32, u32) {
    (record.left, record.sector, record.buffer)
}

/// A record that is busy with a command.
fn busy(command: u32, left: u32, sector: u32, buffer: u32) -> Record {
    let mut record = Record::fresh();
    record.io[DISKCMD] = command;
    record.io[DISKSTATUS] = 1;
    record.left = left;
    record.sector = sector;
    record.buffer = buffer;
    record
}

#[test]
fn d1_word_k_moves_in_cycle_c_plus_8_times_k_plus_1() {
    // "moves word k of the sector, k from 0 to 127, in the disk's step of cycle c+8(k+1)", also
    // where c is no multiple of 8
    for (command, c) in [(READ, 0), (WRITE, 0), (READ, 1_000_003), (WRITE, 77)] {
        let (sector, buffer) = (5, 300);
        let mut lab = commanding(command, sector, buffer);
        lab.record.age = c;
        let mut expected = lab.clone();
        one(&mut lab); // cycle c
        assert_eq!(disk_fields(&lab.record), (1024, sector, buffer));
        // none in c itself
        assert!(lab.data == expected.data && lab.disk == expected.disk);
        for k in 0..128 {
            for _ in 0..7 {
                one(&mut lab);
                assert!(lab.data == expected.data && lab.disk == expected.disk);
            }
            one(&mut lab);
            assert_eq!(lab.record.age, c + 8 * (k + 1) + 1);
            assert_eq!(lab.record.left, 1024 - 8 * (k as u32 + 1));
            let k = k as usize;
            if command == READ {
                expected.data[300 + k] = on_disk(5 * 128 + k);
            } else {
                expected.disk[5 * 128 + k] = in_data(300 + k);
            }
            assert!(lab.data == expected.data && lab.disk == expected.disk);
        }
        assert_eq!(lab.record.age, c + 1025);
        lab.run(2000);
        assert!(lab.data == expected.data && lab.disk == expected.disk);
    }
    // The same by numbers: how many words have come after so many cycles since cycle 0.
    for (cycles, words) in [
        (0, 0),
        (7, 0),
        (8, 1),
        (15, 1),
        (16, 2),
        (512, 64),
        (1015, 126),
        (1016, 127),
        (1023, 127),
        (1024, 128),
        (1025, 128),
    ] {
        let mut lab = commanding(READ, 127, 3968);
        lab.run(1 + cycles);
        for k in 0..128 {
            let expected = if k < words {
                on_disk(16256 + k)
            } else {
                in_data(3968 + k)
            };
            assert_eq!(lab.data[3968 + k], expected, "{cycles} {k}");
        }
    }
}

#[test]
fn d2_step_6_comes_after_step_4() {
    // Word 0 moves in cycle 8. A write takes what the sw of cycle 8 stored ...
    let mut lab = commanding(WRITE, 2, 0x200);
    lab.image[8] = word("sw $imm2, $zero, $imm1, $zero, 0x200, 77");
    lab.run(9);
    assert_eq!((lab.data[0x200], lab.disk[256]), (77, 77));
    // ... a read overwrites it ...
    let mut lab = commanding(READ, 2, 0x200);
    lab.image[8] = word("sw $imm2, $zero, $imm1, $zero, 0x200, 77");
    lab.run(9);
    assert_eq!(
        (lab.data[0x200], lab.disk[256]),
        (on_disk(256), on_disk(256))
    );
    // ... and a lw still sees the word as it was; that of cycle 9 sees the disk's.
    let mut lab = commanding(READ, 2, 0x200);
    lab.image[8] = word("lw $v0, $zero, $imm1, $zero, 0x200, 0");
    lab.image[9] = word("lw $a0, $zero, $imm1, $zero, 0x200, 0");
    lab.run(10);
    assert_eq!((lab.r(3), lab.r(4)), (in_data(0x200), on_disk(256)));
}

#[test]
fn d3_a_word_is_the_one_of_the_cycle_in_which_it_moves() {
    // Word 1 moves in cycle 16. Stored before: it reaches the disk; stored after: it does not.
    for (cycle, reaches) in [(1, true), (15, true), (16, true), (17, false)] {
        let mut lab = commanding(WRITE, 2, 0x200);
        lab.image[cycle] = word("sw $imm2, $zero, $imm1, $zero, 0x201, 77");
        lab.run(1025);
        let expected = if reaches { 77 } else { in_data(0x201) };
        assert_eq!(lab.disk[257], expected, "{cycle}");
        assert_eq!(lab.data[0x201], 77);
        // the words around it
        assert_eq!(
            (lab.disk[256], lab.disk[258]),
            (in_data(0x200), in_data(0x202))
        );
    }
    // A read: stored before, it is overwritten; stored after, it stays.
    for (cycle, stays) in [(15, false), (16, false), (17, true)] {
        let mut lab = commanding(READ, 2, 0x200);
        lab.image[cycle] = word("sw $imm2, $zero, $imm1, $zero, 0x201, 77");
        lab.run(1025);
        let expected = if stays { 77 } else { on_disk(257) };
        assert_eq!(lab.data[0x201], expected, "{cycle}");
        assert_eq!(lab.disk[257], on_disk(257));
    }
    // A word that the program copies along: in cycle 9 word 0 of the sector is at 0x200, and goes to
    // 0x27F, which word 127 of the sector overwrites in cycle 1024.
    let mut lab = commanding(READ, 2, 0x200);
    lab.image[9] = word("lw $t0, $zero, $imm1, $zero, 0x200, 0");
    lab.image[10] = word("sw $t0, $zero, $imm1, $zero, 0x27F, 0");
    lab.run(1024);
    assert_eq!(lab.data[0x27F], on_disk(256));
    one(&mut lab);
    assert_eq!(lab.data[0x27F], on_disk(256 + 127));
}

#[test]
fn d4_writing_disksector_and_diskbuffer_while_busy() {
    // changed in the cycles right after the command, and once more on the way
    for command in [READ, WRITE] {
        let mut lab = commanding(command, 3, 200);
        lab.image[1] = word("out $zero, $zero, $imm1, $imm2, 15, 9");
        lab.image[2] = word("out $zero, $zero, $imm1, $imm2, 16, 1000");
        lab.image[500] = word("out $zero, $zero, $imm1, $imm2, 16, 0xFFF");
        let mut expected = lab.clone();
        for k in 0..128 {
            if command == READ {
                expected.data[200 + k] = on_disk(384 + k);
            } else {
                expected.disk[384 + k] = in_data(200 + k);
            }
        }
        lab.run(3);
        assert_eq!(disk_fields(&lab.record), (1022, 3, 200));
        assert_eq!(lab.record.io[DISKSECTOR], 9);
        assert_eq!(lab.record.io[DISKBUFFER], 1000);
        lab.run(1021);
        // The record's two fields fall to zero in the step in which left does.
        assert_eq!(disk_fields(&lab.record), (1, 3, 200));
        one(&mut lab);
        assert_eq!(disk_fields(&lab.record), (0, 0, 0));
        // completion leaves the registers alone
        assert_eq!(lab.record.io[DISKSECTOR], 9);
        assert_eq!(lab.record.io[DISKBUFFER], 4095);
        assert!(lab.data == expected.data && lab.disk == expected.disk);
    }
    // "taken at acceptance": what the registers hold in that cycle, and the next command takes what
    // they hold then
    let mut lab = commanding(READ, 3, 200);
    lab.image[0] = word("out $zero, $zero, $imm1, $imm2, 15, 4");
    lab.image[1] = word("out $zero, $zero, $imm1, $imm2, 16, 400");
    lab.image[2] = word("out $zero, $zero, $imm1, $imm2, 14, 1");
    lab.image[3] = word("out $zero, $zero, $imm1, $imm2, 16, 600");
    lab.image[1027] = word("out $zero, $zero, $imm1, $imm2, 14, 2");
    lab.run(4);
    assert_eq!(disk_fields(&lab.record), (1023, 4, 400));
    lab.run(1023);
    assert_eq!(disk_fields(&lab.record), (0, 0, 0));
    one(&mut lab);
    assert_eq!(disk_fields(&lab.record), (1024, 4, 600));
    lab.run(1024);
    assert_eq!(lab.data[400 + 127], on_disk(512 + 127));
    assert_eq!(lab.disk[512 + 127], in_data(600 + 127));
    assert_eq!(lab.data[200..328], commanding(READ, 3, 200).data[200..328]);
}

#[test]
fn d5_the_cycle_that_moves_word_127_frees_the_disk() {
    // The direction is the command's in it too, whatever an out to diskcmd in it says, and diskcmd
    // and diskstatus still read as before.
    for (command, other) in [(READ, WRITE), (WRITE, READ)] {
        for line in [
            format!("out $zero, $zero, $imm1, $imm2, 14, {other}"),
            "out $zero, $zero, $imm1, $imm2, 14, 0".to_string(),
            "in $v0, $zero, $imm1, $zero, 14, 0".to_string(),
            "in $v0, $zero, $imm1, $zero, 17, 0".to_string(),
        ] {
            let mut lab = commanding(command, 1, 50);
            lab.image[1024] = word(&line);
            lab.run(1024);
            assert_eq!(disk_fields(&lab.record), (1, 1, 50));
            assert_eq!(
                (lab.data[177], lab.disk[255]),
                (in_data(177), on_disk(255)),
                "{line}"
            );
            let said = lab.cycle();
            let both = if command == READ {
                on_disk(255)
            } else {
                in_data(177)
            };
            assert_eq!((lab.data[177], lab.disk[255]), (both, both), "{line}");
            assert_eq!(disk_fields(&lab.record), (0, 0, 0));
            assert_eq!((lab.record.io[DISKCMD], lab.record.io[DISKSTATUS]), (0, 0));
            assert_eq!(lab.record.io[IRQ1STATUS], 1);
            if line.starts_with("in") && line.contains("14") {
                assert_eq!(said, format!("H 1024 READ diskcmd {command:08X}"));
            } else if line.starts_with("in") {
                assert_eq!(said, "H 1024 READ diskstatus 00000001");
            }
        }
    }
}

#[test]
fn d6_a_cycle_that_halts_or_faults_has_its_step_6() {
    for (line, status) in [
        ("halt $zero, $zero, $zero, $zero, 0, 0", 1),
        ("lw $v0, $zero, $imm1, $zero, -1, 0", 3),
        ("sw $v0, $zero, $imm1, $zero, -1, 0", 3),
        ("in $v0, $zero, $imm1, $zero, 18, 0", 4),
        ("out $v0, $zero, $imm1, $zero, 23, 0", 4),
    ] {
        for command in [READ, WRITE] {
            // in cycle 16, whose word moves, and in the cycle before, without a word of its own
            for (cycle, words) in [(16, 2), (15, 1)] {
                let mut lab = commanding(command, 6, 700);
                lab.image[cycle] = word(line);
                let (_, answer) = lab.run(2000);
                assert_eq!(answer.cycles, cycle as u64 + 1);
                assert_eq!(lab.record.status, status);
                assert_eq!(disk_fields(&lab.record), (1024 - cycle as u32, 6, 700));
                // busy and sound; no cycle follows, and the rest of the sector never moves
                assert!(is_sound(&lab.record));
                let (_, answer) = lab.run(2000);
                assert_eq!((answer.cycles, answer.reason), (0, 1));
                let mut expected = commanding(command, 6, 700);
                for k in 0..words {
                    if command == READ {
                        expected.data[700 + k] = on_disk(768 + k);
                    } else {
                        expected.disk[768 + k] = in_data(700 + k);
                    }
                }
                assert!(lab.data == expected.data && lab.disk == expected.disk);
            }
        }
    }
    // an unknown opcode too
    let mut lab = commanding(READ, 6, 700);
    lab.image[8] = 0x160000000000;
    lab.run(2000);
    assert_eq!((lab.record.status, lab.data[700]), (2, on_disk(768)));
    // a halt in the last cycle of a command: the last word moves and the disk is free
    let mut lab = commanding(WRITE, 6, 700);
    lab.image[1024] = word("halt $zero, $zero, $zero, $zero, 0, 0");
    lab.run(2000);
    assert_eq!(disk_fields(&lab.record), (0, 0, 0));
    assert_eq!((lab.record.status, lab.record.io[IRQ1STATUS]), (1, 1));
    assert_eq!(lab.disk[768 + 127], in_data(827));
}

#[test]
fn d7_status_5_and_commands_while_busy() {
    // not accepted, the fields stay zero
    for command in [READ, WRITE] {
        let mut lab = commanding(command, 7, 3969);
        let before = lab.clone();
        let (_, answer) = lab.run(100);
        assert_eq!((answer.cycles, lab.record.status), (1, 5));
        assert_eq!(disk_fields(&lab.record), (0, 0, 0));
        assert_eq!((lab.record.io[DISKCMD], lab.record.io[DISKSTATUS]), (0, 0));
        assert!(is_sound(&lab.record));
        assert!(lab.data == before.data && lab.disk == before.disk);
    }
    // busy, a command is ignored whatever diskbuffer holds
    for value in [0, 1, 2, 3] {
        for buffer in ["0", "0xF80", "0xF81", "0xFFF"] {
            let mut lab = commanding(READ, 7, 3968);
            lab.image[1] = word(&format!("out $zero, $zero, $imm1, $imm2, 16, {buffer}"));
            lab.image[2] = word(&format!("out $zero, $zero, $imm1, $imm2, 14, {value}"));
            lab.run(3);
            assert_eq!((lab.record.status, lab.record.pc), (0, 3));
            assert_eq!(disk_fields(&lab.record), (1022, 7, 3968));
            assert_eq!(lab.record.io[DISKCMD], 1);
            lab.run(1022);
            assert_eq!(disk_fields(&lab.record), (0, 0, 0));
            let mut expected = commanding(READ, 7, 3968);
            for k in 0..128 {
                expected.data[3968 + k] = on_disk(896 + k);
            }
            assert!(lab.data == expected.data && lab.disk == expected.disk);
        }
    }
}

/// Whether run, save and the definition find a record sound, all three.
fn all_find_sound(record: &Record) -> bool {
    let sound = is_sound(record);
    let number = if sound { None } else { no(13) };
    let mut lab = Lab::empty();
    let answer = run(
        record,
        &lab.image,
        &mut lab.data,
        &mut lab.disk,
        &mut lab.frame,
        &[],
        0,
        &mut [],
    );
    assert_eq!((answer.refusal, &answer.record), (number, record));
    let mut bytes = [0xEE; 94];
    assert_eq!(save(record, &mut bytes).err(), number);
    assert_eq!(bytes == [0xEE; 94], !sound);
    sound
}

#[test]
fn d8_soundness() {
    // free: sector = buffer = 0
    let mut record = Record::fresh();
    assert!(all_find_sound(&record));
    for (sector, buffer) in [
        (1, 0),
        (0, 1),
        (127, 0),
        (0, 3968),
        (5, 5),
        (128, 0),
        (0, 4096),
    ] {
        record.sector = sector;
        record.buffer = buffer;
        assert!(!all_find_sound(&record), "{sector} {buffer}");
    }
    // ... whatever the registers disksector and diskbuffer hold
    record = Record::fresh();
    record.io[DISKSECTOR] = 5;
    record.io[DISKBUFFER] = 5;
    assert!(all_find_sound(&record));
    record.sector = 5;
    record.buffer = 5;
    assert!(!all_find_sound(&record));

    // busy: sector at most 127, buffer at most 3968, left 1 to 1024
    for command in [READ, WRITE] {
        for left in [1, 2, 8, 1023, 1024] {
            assert!(all_find_sound(&busy(command, left, 0, 0)));
            assert!(all_find_sound(&busy(command, left, 127, 3968)));
            assert!(!all_find_sound(&busy(command, left, 128, 3968)));
            assert!(!all_find_sound(&busy(command, left, 127, 3969)));
            assert!(!all_find_sound(&busy(command, left, 0, 4095)));
            assert!(!all_find_sound(&busy(command, left, 0, 4096)));
            assert!(!all_find_sound(&busy(command, left, u32::MAX, 0)));
            assert!(!all_find_sound(&busy(command, left, 0, u32::MAX)));
        }
        for left in [0, 1025, 2048, u32::MAX] {
            assert!(!all_find_sound(&busy(command, left, 0, 0)));
            assert!(!all_find_sound(&busy(command, left, 1, 1)));
        }
        // Nothing ties them to the registers disksector and diskbuffer.
        for (sector, buffer) in [(0, 0), (127, 4095), (9, 3969)] {
            let mut record = busy(command, 500, 3, 17);
            record.io[DISKSECTOR] = sector;
            record.io[DISKBUFFER] = buffer;
            assert!(all_find_sound(&record));
        }
    }
    // the rest of 01's soundness stays: diskstatus and diskcmd go with left
    for (left, diskstatus, diskcmd) in [(5, 0, 1), (5, 1, 0), (5, 1, 3), (0, 1, 1), (0, 0, 2)] {
        let mut record = busy(diskcmd, left, 0, 0);
        record.io[DISKSTATUS] = diskstatus;
        assert!(!all_find_sound(&record));
    }
}

fn saved(record: &Record) -> [u8; 94] {
    let mut bytes = [0xEE; 94];
    save(record, &mut bytes).expect("a sound record");
    bytes
}

/// Reads bytes that are to be refused: the number; the record is the fresh one.
fn refused(bytes: &[u8]) -> u32 {
    let answer = read(bytes);
    assert_eq!(answer.record, Record::fresh());
    let refusal = answer.refusal.expect("a refusal");
    assert_eq!(refusal.place, 0);
    refusal.number
}

#[test]
fn d9_five_zero_bits_at_the_end() {
    for record in [Record::fresh(), busy(WRITE, 77, 127, 3968)] {
        let good = saved(&record);
        assert_eq!(good[93] & 31, 0);
        assert_eq!(read(&good).refusal, None);
        for value in 1..32 {
            let mut bytes = good;
            bytes[93] |= value;
            assert_eq!(refused(&bytes), 13, "{value}");
        }
    }
    // the bit before them is monitordata's last
    let mut record = Record::fresh();
    record.io[MONITORDATA] = 1;
    assert_eq!(saved(&record)[93], 0x20);
}

#[test]
fn d10_the_questions_of_reading_in_their_order() {
    // 1: any length but 91 and 94, whatever the bytes hold
    for length in 0..200 {
        if length != 91 && length != 94 {
            for first in [0, 1, 2, 3] {
                let mut bytes = vec![0; length];
                if length > 0 {
                    bytes[0] = first;
                }
                assert_eq!(refused(&bytes), 1, "{length}");
            }
        }
    }
    // 14: an edition that isn't that length's, whatever the rest holds
    for rest in [0x00, 0xFF, 0x55] {
        for edition in 0..=255 {
            let mut old = [rest; 91];
            old[0] = edition;
            if edition != 1 {
                assert_eq!(refused(&old), 14);
            }
            let mut new = [rest; 94];
            new[0] = edition;
            if edition != 2 {
                assert_eq!(refused(&new), 14);
            }
        }
    }
    // 13: a record of edition 2 that isn't sound
    let mut bytes = [0; 94];
    bytes[0] = 2;
    assert_eq!(read(&bytes).record, Record::fresh());
    assert_eq!(read(&bytes).refusal, None);
    for (at, bit) in [
        (1, 0xC0),  // status 6
        (9, 0x20),  // left 1, with a free disk
        (9, 0x01),  // sector 4, with a free disk
        (10, 0x80), // sector 2, with a free disk
        (10, 0x20), // buffer 2048, with a free disk
        (11, 0x04), // buffer 1, with a free disk
        (93, 0x01), // the last of the five bits
    ] {
        let mut bad = bytes;
        bad[at] = bit;
        assert_eq!(refused(&bad), 13, "{at}");
    }
    // ... of edition 1, busy or not: document 01's soundness
    let mut record = Record::fresh();
    record.status = 6;
    assert_eq!(refused(&edition_1(&record)), 13);
    for (left, diskstatus, diskcmd) in [
        (1025, 1, 1),
        (2047, 1, 2),
        (5, 0, 1),
        (5, 1, 0),
        (5, 1, 3),
        (5, 0, 0),
        (0, 1, 1),
        (0, 0, 1),
        (0, 0, 3),
    ] {
        let mut record = busy(diskcmd, left, 0, 0);
        record.io[DISKSTATUS] = diskstatus;
        assert_eq!(refused(&edition_1(&record)), 13);
    }
    let mut record = busy(READ, 5, 0, 0);
    record.status = 7;
    assert_eq!(refused(&edition_1(&record)), 13);
    // 20: a busy edition 1 that is sound; also with the register diskbuffer above 3968
    for left in [1, 5, 1023, 1024] {
        for command in [READ, WRITE] {
            for buffer in [0, 3968, 3969, 4095] {
                let mut record = busy(command, left, 0, 0);
                record.io[DISKBUFFER] = buffer;
                assert_eq!(refused(&edition_1(&record)), 20);
            }
        }
    }
    // a stopped one too
    let mut record = busy(WRITE, 5, 0, 0);
    record.status = 1;
    assert_eq!(refused(&edition_1(&record)), 20);
}

/// The bits of bytes as a text of 0 and 1, and back.
fn bits_of(bytes: &[u8]) -> String {
    bytes.iter().map(|byte| format!("{byte:08b}")).collect()
}
fn bytes_of(bits: &str) -> Vec<u8> {
    (0..bits.len() / 8)
        .map(|byte| u8::from_str_radix(&bits[byte * 8..byte * 8 + 8], 2).unwrap())
        .collect()
}

#[test]
fn d11_a_free_edition_1_is_read() {
    let mut numbers = Numbers(11);
    for turn in 0..50 {
        let mut record = Record::fresh();
        record.status = numbers.below(6) as u32;
        record.flag = numbers.below(2) as u32;
        record.pc = numbers.below(4096) as u32;
        record.age = numbers.below(1 << 40);
        for value in record.r.iter_mut() {
            *value = numbers.next() as u32;
        }
        for number in (0..22).filter(|number| ![14, 17, 18, 19].contains(number)) {
            record.io[number] = low_bits(numbers.next() as u32, IO[number].unwrap().1);
        }
        if turn == 0 {
            record.io[DISKSECTOR] = 127;
            record.io[DISKBUFFER] = 4095;
        }
        // read with sector = buffer = 0, whatever its disksector and diskbuffer hold
        let old = edition_1(&record);
        assert_eq!(old[0], 1);
        let answer = read(&old);
        assert_eq!((answer.refusal, &answer.record), (None, &record));
        assert_eq!(disk_fields(&answer.record), (0, 0, 0));
        // Saved again it is edition 2 with the same fields: 19 zero bits more after the first 75,
        // and five at the end.
        let bits = bits_of(&old);
        let expected = [
            "00000010",
            &bits[8..75],
            &"0".repeat(7 + 12),
            &bits[75..],
            "00000",
        ]
        .concat();
        assert_eq!(saved(&answer.record).to_vec(), bytes_of(&expected));
        assert_eq!(read(&bytes_of(&expected)).record, record);
    }
}

#[test]
fn d12_saving_writes_edition_2_only() {
    for record in [Record::fresh(), busy(READ, 1024, 1, 1)] {
        for length in [0, 90, 91, 92, 93, 95, 188] {
            let mut bytes = vec![0xEE; length];
            assert_eq!(save(&record, &mut bytes).err(), no(1));
            assert!(bytes.iter().all(|byte| *byte == 0xEE));
        }
        let bytes = saved(&record);
        assert_eq!(bytes[0], 2);
        assert_eq!(read(&bytes).record, record);
    }
    // 1 before 13
    let mut record = Record::fresh();
    record.sector = 1;
    assert_eq!(save(&record, &mut [0; 91]).err(), no(1));
    assert_eq!(save(&record, &mut [0; 94]).err(), no(13));
    // a refused reading gives the fresh record: `refused` asks it, of each number
    assert_eq!(refused(&[2; 93]), 1);
    assert_eq!(refused(&[2; 91]), 14);
    assert_eq!(refused(&[1; 94]), 14);
    assert_eq!(refused(&[2; 94]), 13);
    assert_eq!(refused(&edition_1(&busy(READ, 1, 0, 0))), 20);
}

/// Saves the lab's record and goes on with what is read back.
fn record_trip(lab: &mut Lab) {
    let answer = read(&saved(&lab.record));
    assert_eq!((answer.refusal, &answer.record), (None, &lab.record));
    lab.record = answer.record;
}

/// One run with so many bytes for the log; gives how many it wrote, the cycles and the reason.
fn run_in(lab: &mut Lab, budget: u64, log: &mut [u8]) -> (usize, u64, u32) {
    let answer = run(
        &lab.record,
        &lab.image,
        &mut lab.data,
        &mut lab.disk,
        &mut lab.frame,
        &lab.irq2,
        budget,
        log,
    );
    assert_eq!(answer.refusal, None);
    lab.record = answer.record;
    (answer.log_bytes, answer.cycles, answer.reason)
}

#[test]
fn d13_cut_in_mid_sector() {
    // Cut after every third number of cycles (of a write, every 13th), by the budget or by the log's
    // space, with the record saved and read back there: the same end.
    const T: usize = 163;
    let with_h = T + "H 0 WRITE diskcmd 00000001\n".len();
    for command in [READ, WRITE] {
        let mut whole = commanding(command, 12, 900);
        let (whole_log, _) = whole.run(1030);
        assert_eq!(disk_fields(&whole.record), (0, 0, 0));
        for cut in (0..1030).step_by(if command == READ { 3 } else { 13 }) {
            for by_space in [false, true] {
                let mut lab = commanding(command, 12, 900);
                let first = if cut == 0 { 0 } else { with_h + (cut - 1) * T };
                let (room, budget) = if by_space {
                    (first + T - 1, 1030)
                } else {
                    (first + T, cut as u64)
                };
                let mut log = vec![0; room];
                let (bytes, cycles, reason) = run_in(&mut lab, budget, &mut log);
                assert_eq!((bytes, cycles), (first, cut as u64));
                assert_eq!(reason, if by_space { 2 } else { 0 });
                // A cycle that isn't made moves nothing: words up to the last made one.
                let words = if cut == 0 {
                    0
                } else {
                    ((cut - 1) / 8).min(128)
                };
                let mut expected = commanding(command, 12, 900);
                for k in 0..words {
                    if command == READ {
                        expected.data[900 + k] = on_disk(1536 + k);
                    } else {
                        expected.disk[1536 + k] = in_data(900 + k);
                    }
                }
                assert!(
                    lab.data == expected.data && lab.disk == expected.disk,
                    "{cut}"
                );
                record_trip(&mut lab);
                let (rest, answer) = lab.run(1030 - cut as u64);
                assert_eq!(answer.cycles, 1030 - cut as u64);
                log.truncate(bytes);
                log.extend_from_slice(rest.as_bytes());
                assert!(log == whole_log.as_bytes());
                assert!(lab == whole, "{cut}");
            }
        }
    }
    // Nothing but the record carries the transfer over: left tells the words that are still to go,
    // whatever the age and clks are. With left 9 the next cycle brings it to 8: word 126.
    for age in [0, 5, 12_345] {
        let mut lab = commanding(0, 0, 0);
        lab.record = busy(READ, 9, 3, 100);
        lab.record.age = age;
        lab.record.pc = 1;
        let before = lab.clone();
        one(&mut lab);
        assert_eq!(lab.data[226], on_disk(384 + 126));
        assert_eq!(lab.data[..226], before.data[..226]);
        assert_eq!(lab.data[227..], before.data[227..]);
        lab.run(7);
        assert_eq!((lab.record.left, lab.data[227]), (1, in_data(227)));
        one(&mut lab);
        assert_eq!((lab.record.left, lab.data[227]), (0, on_disk(384 + 127)));
        assert_eq!(lab.data[..226], before.data[..226]);
        assert_eq!(lab.data[228..], before.data[228..]);
    }
}

/// Demand 3 over lists of runs and return trips of a program that keeps the disk at work and changes
/// the buffers and the disk's registers meanwhile: cut by budget and by log space, mostly in
/// mid-sector, with the record saved and read back.
#[test]
fn d13_lists_of_calls_in_mid_sector() {
    // $s0 counts up and makes the sector and the buffer, $t2 sums words up and makes the command; both
    // are stored in the buffers.
    let source = "\
loop:   add  $s0, $s0, $imm1, $zero, 37, 0
        out  $zero, $zero, $imm1, $s0, 15, 0
        mac  $t0, $s0, $imm1, $zero, 61, 0
        and  $t0, $t0, $imm1, $imm1, 0x7FF, 0
        out  $zero, $zero, $imm1, $t0, 16, 0
        out  $zero, $zero, $imm1, $t2, 14, 0
        sw   $s0, $t0, $imm1, $zero, 64, 0
        in   $t1, $zero, $imm1, $zero, 17, 0
        lw   $t2, $t0, $imm1, $t2, 100, 0
        sw   $t2, $t0, $zero, $s0, 0, 0
        beq  $zero, $zero, $zero, $imm1, loop, 0
";
    let mut numbers = Numbers(13);
    let mut cuts_in_mid_sector = [0, 0];
    let mut written = 0;
    for _ in 0..6 {
        let mut lab = Lab::of(source);
        for word in lab.data.iter_mut().chain(lab.disk.iter_mut()) {
            *word = numbers.next() as u32;
        }
        let mut plain = PlainMachine::new(&lab.image, &lab.data, &lab.disk, &lab.frame, &[]);
        let before = lab.disk.clone();
        let mut joined = Vec::new();
        for _ in 0..60 {
            let mut log = vec![0; numbers.below(40_000) as usize];
            let (bytes, cycles, reason) = run_in(&mut lab, numbers.below(200), &mut log);
            joined.extend_from_slice(&log[..bytes]);
            for _ in 0..cycles {
                assert!(plain.step());
            }
            assert!(lab.record == plain.record && joined == plain.log);
            assert!(lab.data == plain.data && lab.disk == plain.disk);
            if lab.record.left > 0 {
                cuts_in_mid_sector[usize::from(reason == 2)] += 1;
                assert_ne!((lab.record.sector, lab.record.buffer), (0, 0));
            }
            record_trip(&mut lab);
        }
        written += (0..16384).filter(|w| lab.disk[*w] != before[*w]).count();
    }
    assert!(written > 500, "{written}");
    assert!(cuts_in_mid_sector[0] > 20 && cuts_in_mid_sector[1] > 20);
}

#[test]
fn d14_the_places_of_sector_and_buffer() {
    // Bits 76 to 82 and 83 to 94, counted from 1; left ends with bit 75, R3 begins with bit 95. By
    // hand: byte 9 has bits 73 to 80, byte 10 bits 81 to 88, byte 11 bits 89 to 96.
    let front = |record: &Record| saved(record)[8..13].to_vec();
    let b = |sector, buffer| busy(READ, 1, sector, buffer);
    assert_eq!(front(&b(0, 0)), [0x00, 0x20, 0x00, 0x00, 0x00]);
    assert_eq!(front(&b(127, 0)), [0x00, 0x3F, 0xC0, 0x00, 0x00]);
    assert_eq!(front(&b(64, 0)), [0x00, 0x30, 0x00, 0x00, 0x00]);
    assert_eq!(front(&b(1, 0)), [0x00, 0x20, 0x40, 0x00, 0x00]);
    assert_eq!(front(&b(0, 1)), [0x00, 0x20, 0x00, 0x04, 0x00]);
    assert_eq!(front(&b(0, 2048)), [0x00, 0x20, 0x20, 0x00, 0x00]);
    assert_eq!(front(&b(0, 3968)), [0x00, 0x20, 0x3E, 0x00, 0x00]);
    let mut record = busy(WRITE, 1024, 0, 0);
    record.r[0] = 0xFFFF_FFFF;
    assert_eq!(front(&record), [0x80, 0x00, 0x00, 0x03, 0xFF]);
    // the whole of a record, each field by its bits
    let mut record = busy(WRITE, 3, 0x55, 0xABC);
    record.r[12] = 1;
    record.io[IRQ0ENABLE] = 1;
    let bits = [
        "00000010",     // edition 2
        "000",          // status
        "0",            // flag
        "000000000000", // PC
        &"0".repeat(40),
        "00000000011",  // left 3
        "1010101",      // sector 0x55
        "101010111100", // buffer 0xABC
        &"0".repeat(12 * 32 + 31),
        "1", // R15
        "1", // irq0enable
        &"0".repeat(5 + 12 + 12 + 32 + 32 + 32 + 1 + 32 + 32),
        "10",           // diskcmd 2
        "0000000",      // disksector
        "000000000000", // diskbuffer
        "1",            // diskstatus
        &"0".repeat(16 + 8),
        "00000", // the five bits
    ]
    .concat();
    assert_eq!(bits.len(), 752);
    assert_eq!(saved(&record).to_vec(), bytes_of(&bits));
    assert_eq!(read(&bytes_of(&bits)).record, record);
}
