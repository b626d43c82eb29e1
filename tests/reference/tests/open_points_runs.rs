//! The open points G1, R1 to R6, S1 to S5, X1 to X3, and demand 3's list of runs and return trips.

mod common;
use common::*;
use reference::files::*;
use reference::machine::PlainMachine;
use reference::names::*;
use reference::record::{is_sound, read, save, Record};
use reference::run::run;
use reference::simlog::{milliseconds, simlog};
use reference::Refusal;

const LOOP: &str = "L: beq $zero, $zero, $zero, $imm1, L, 0";
/// The bytes of a T line.
const T_BYTES: usize = 163;

fn no(number: u32) -> Option<Refusal> {
    Some(Refusal { number, place: 0 })
}

#[test]
fn g1_r2_and_r5_questions_of_a_run_and_what_a_refusal_counts() {
    let unsound = {
        let mut record = Record::fresh();
        record.status = 6;
        record
    };
    let mut log = [b'?'; 500];
    // image, data, disk, frame, irq2, record, number
    type Case<'a> = (usize, usize, usize, usize, &'a [u64], &'a Record, u32);
    let cases: [Case; 9] = [
        (4095, 4096, 16384, 65536, &[], &Record::fresh(), 1),
        (4096, 4097, 16384, 65536, &[], &Record::fresh(), 1),
        (4096, 4096, 128, 65536, &[], &Record::fresh(), 1),
        (4096, 4096, 16384, 0, &[], &Record::fresh(), 1),
        (0, 0, 0, 0, &[2, 1], &unsound, 1),
        (4096, 4096, 16384, 65536, &[2, 1], &unsound, 12),
        (4096, 4096, 16384, 65536, &[1, 1], &Record::fresh(), 12),
        (
            4096,
            4096,
            16384,
            65536,
            &[0, 5, 9, 8],
            &Record::fresh(),
            12,
        ),
        (4096, 4096, 16384, 65536, &[1, 2], &unsound, 13),
    ];
    for (image, data, disk, frame, irq2, record, number) in cases {
        let image = vec![word("sw $imm1, $zero, $zero, $zero, 1, 0"); image];
        let mut data = vec![7; data];
        let mut disk = vec![7; disk];
        let mut frame = vec![7; frame];
        let answer = run(
            record, &image, &mut data, &mut disk, &mut frame, irq2, 10, &mut log,
        );
        assert_eq!(answer.refusal, no(number));
        // R5: "A refused run has reason 0 and counts 0"; "a run hands its record back"
        assert_eq!((answer.cycles, answer.log_bytes, answer.reason), (0, 0, 0));
        assert_eq!(&answer.record, record);
        assert!(data.iter().chain(&disk).all(|word| *word == 7));
        assert!(frame.iter().all(|byte| *byte == 7));
        assert!(log.iter().all(|byte| *byte == b'?'));
    }
}

#[test]
fn r1_entries_above_the_limit_are_accepted() {
    let mut lab = Lab::of(LOOP);
    lab.irq2 = vec![2, (1 << 40) - 1, 1 << 40, u64::MAX];
    let (_, answer) = lab.run(5);
    assert_eq!((answer.cycles, answer.record.io[IRQ2STATUS]), (5, 1));
}

fn reason(record: &Record, budget: u64, log_bytes: usize) -> (u32, u64, usize) {
    let mut lab = Lab::of(LOOP);
    let mut log = vec![b'?'; log_bytes];
    let answer = run(
        record,
        &lab.image,
        &mut lab.data,
        &mut lab.disk,
        &mut lab.frame,
        &lab.irq2,
        budget,
        &mut log,
    );
    assert_eq!(answer.refusal, None);
    assert!(log[answer.log_bytes..].iter().all(|byte| *byte == b'?'));
    (answer.reason, answer.cycles, answer.log_bytes)
}

#[test]
fn r3_order_of_the_reasons() {
    let fresh = Record::fresh();
    let mut halted = Record::fresh();
    halted.status = 1;
    let mut at_limit = Record::fresh();
    at_limit.age = (1 << 40) - 1;
    let mut halted_at_limit = at_limit.clone();
    halted_at_limit.status = 1;
    assert_eq!(reason(&halted, 0, 0), (1, 0, 0));
    assert_eq!(reason(&halted, 9, 0), (1, 0, 0));
    assert_eq!(reason(&halted_at_limit, 9, 999), (1, 0, 0));
    assert_eq!(reason(&at_limit, 0, 0), (3, 0, 0));
    assert_eq!(reason(&at_limit, 9, 999), (3, 0, 0));
    assert_eq!(reason(&fresh, 0, 0), (0, 0, 0));
    assert_eq!(reason(&fresh, 1, 0), (2, 0, 0));
    assert_eq!(reason(&fresh, 2, 999), (0, 2, 2 * T_BYTES));
    // one cycle below the limit
    let mut nearly = Record::fresh();
    nearly.age = (1 << 40) - 2;
    assert_eq!(reason(&nearly, 9, 999), (3, 1, T_BYTES));
    assert_eq!(reason(&nearly, 1, 999), (3, 1, T_BYTES));
    // every status but 0 gives 1
    for status in 1..=5 {
        let mut stopped = Record::fresh();
        stopped.status = status;
        assert_eq!(reason(&stopped, 9, 999), (1, 0, 0));
    }
    // the cycle that halts is counted, and the reason is 1 though the budget is spent too
    let mut lab = Lab::of("halt $zero, $zero, $zero, $zero, 0, 0");
    let (log, answer) = lab.run(1);
    assert_eq!((answer.reason, answer.cycles, log.len()), (1, 1, T_BYTES));
}

#[test]
fn r4_lines_go_in_whole() {
    let fresh = Record::fresh();
    assert_eq!(reason(&fresh, 9, T_BYTES), (2, 1, T_BYTES));
    assert_eq!(reason(&fresh, 9, T_BYTES - 1), (2, 0, 0));
    assert_eq!(reason(&fresh, 9, 2 * T_BYTES + 1), (2, 2, 2 * T_BYTES));
    assert_eq!(reason(&fresh, 2, 2 * T_BYTES), (0, 2, 2 * T_BYTES));
    // T, H and L together: 163 + 24 + 13 bytes; nothing is done where they do not fit
    let source = "out $zero, $zero, $imm1, $imm2, 9, 5";
    for (room, cycles) in [(199, 0), (200, 1)] {
        let mut lab = Lab::of(source);
        let mut log = vec![b'?'; room];
        let answer = run(
            &lab.record,
            &lab.image,
            &mut lab.data,
            &mut lab.disk,
            &mut lab.frame,
            &[],
            1,
            &mut log,
        );
        assert_eq!(
            (answer.cycles, answer.log_bytes),
            (cycles, cycles as usize * 200)
        );
        assert_eq!(answer.record.io[LEDS], cycles as u32 * 5);
        assert_eq!(answer.reason, if cycles == 0 { 2 } else { 0 });
    }
    // a store that does not fit is not made
    let mut lab = Lab::of("sw $imm1, $zero, $zero, $zero, 1, 0");
    let mut log = vec![b'?'; T_BYTES - 1];
    run(
        &lab.record,
        &lab.image,
        &mut lab.data,
        &mut lab.disk,
        &mut lab.frame,
        &[],
        1,
        &mut log,
    );
    assert_eq!(lab.data[0], 0);
    assert!(log.iter().all(|byte| *byte == b'?'));
}

#[test]
fn r6_any_budget() {
    let mut lab = Lab::of("halt $zero, $zero, $zero, $zero, 0, 0");
    let mut log = vec![0; 1000];
    let answer = run(
        &lab.record,
        &lab.image,
        &mut lab.data,
        &mut lab.disk,
        &mut lab.frame,
        &[],
        u64::MAX,
        &mut log,
    );
    assert_eq!((answer.reason, answer.cycles), (1, 1));
}

fn saved(record: &Record) -> Result<[u8; 94], (u32, usize)> {
    let mut bytes = [0xEE; 94];
    match save(record, &mut bytes) {
        Ok(()) => Ok(bytes),
        Err(refusal) => {
            assert_eq!(bytes, [0xEE; 94]);
            Err((refusal.number, refusal.place))
        }
    }
}

#[test]
fn s1_places_without_bits() {
    for place in [18, 19, 22] {
        let mut record = Record::fresh();
        record.io[place] = 1;
        assert!(!is_sound(&record));
        assert_eq!(saved(&record), Err((13, 0)));
    }
}

#[test]
fn s2_soundness() {
    let fresh = Record::fresh();
    assert!(is_sound(&fresh));
    let with = |change: &dyn Fn(&mut Record)| {
        let mut record = Record::fresh();
        change(&mut record);
        is_sound(&record)
    };
    // nothing more is asked
    assert!(with(&|r| r.age = (1 << 40) - 1));
    assert!(with(&|r| r.io[CLKS] = 77));
    assert!(with(&|r| r.status = 5));
    assert!(with(&|r| r.flag = 1));
    assert!(with(&|r| r.pc = 4095));
    assert!(with(&|r| r.r = [0xFFFFFFFF; 13]));
    let busy = |left, status, command, buffer| {
        with(&|r| {
            r.left = left;
            r.io[DISKSTATUS] = status;
            r.io[DISKCMD] = command;
            r.io[DISKBUFFER] = buffer;
        })
    };
    assert!(busy(1, 1, 1, 4095));
    assert!(busy(1024, 1, 2, 0));
    // left > 0 exactly when diskstatus = 1 and exactly when diskcmd is 1 or 2, else diskcmd is 0
    for left in [0, 1, 1024, 1025] {
        for status in 0..=1 {
            for command in 0..=3 {
                let sound = (left == 0 && status == 0 && command == 0)
                    || ((1..=1024).contains(&left) && status == 1 && (1..=2).contains(&command));
                assert_eq!(
                    busy(left, status, command, 0),
                    sound,
                    "{left} {status} {command}"
                );
            }
        }
    }
    // each field fits
    assert!(!with(&|r| r.status = 6));
    assert!(!with(&|r| r.status = 7));
    assert!(!with(&|r| r.status = 8));
    assert!(!with(&|r| r.flag = 2));
    assert!(!with(&|r| r.pc = 4096));
    assert!(!with(&|r| r.age = 1 << 40));
    for (number, too_wide) in [
        (0, 2),
        (1, 2),
        (2, 2),
        (3, 2),
        (4, 2),
        (5, 2),
        (6, 4096),
        (7, 4096),
        (11, 2),
        (14, 4),
        (15, 128),
        (16, 4096),
        (17, 2),
        (20, 65536),
        (21, 256),
    ] {
        assert!(!with(&|r| r.io[number] = too_wide), "{number}");
        if number != 14 && number != 17 {
            assert!(with(&|r| r.io[number] = too_wide - 1), "{number}");
        }
    }
    for number in [8, 9, 10, 12, 13] {
        assert!(with(&|r| r.io[number] = 0xFFFFFFFF));
    }
}

#[test]
fn s3_any_length_but_94_is_1() {
    for length in [0, 90, 92, 93, 95, 100] {
        let mut bytes = vec![1; length];
        assert_eq!(pair(save(&Record::fresh(), &mut bytes)), Err((1, 0)));
        assert!(bytes.iter().all(|byte| *byte == 1));
        let answer = read(&bytes);
        assert_eq!((answer.refusal, answer.record), (no(1), Record::fresh()));
    }
    // 1 before 13
    let mut record = Record::fresh();
    record.status = 6;
    assert_eq!(pair(save(&record, &mut [0; 93])), Err((1, 0)));
}

#[test]
fn s4_reading() {
    let good = saved(&Record::fresh()).unwrap();
    let mut expected = [0; 94];
    expected[0] = 2;
    assert_eq!(good, expected);
    assert_eq!(read(&good).refusal, None);
    // 14 before 13
    for edition in [0, 1, 255] {
        let mut bytes = good;
        bytes[0] = edition;
        assert_eq!(read(&bytes).refusal, no(14));
        bytes[1] = 0xC0; // status 6
        assert_eq!(read(&bytes).refusal, no(14));
        assert_eq!(read(&bytes).record, Record::fresh());
    }
    for (byte, value) in [
        (1, 0xC0), // status 6
        (1, 0xE0), // status 7
        (8, 0x01), // left 8 with a free disk: left is bits 64 to 74
        (8, 0xFF), // left above 1024
    ] {
        let mut bytes = good;
        bytes[byte] = value;
        let answer = read(&bytes);
        assert_eq!((answer.refusal, answer.record), (no(13), Record::fresh()));
    }
}

/// The saved form once more, bit by bit, from the widths of documents 01 and 02.
#[test]
fn saved_fields_stand_in_their_order_and_widths() {
    let record = Record {
        status: 5,
        flag: 1,
        pc: 0xABC,
        age: 0x12_3456_789A,
        left: 1024,
        sector: 0x2A,
        buffer: 0xF7F,
        r: [
            0x11111111, 0x22222222, 0x33333333, 0x44444444, 0x55555555, 0x66666666, 0x77777777,
            0x88888888, 0x99999999, 0xAAAAAAAA, 0xBBBBBBBB, 0xCCCCCCCC, 0xDDDDDDDD,
        ],
        io: [
            1, 0, 1, 0, 1, 1, 0xDEF, 0x123, 0xDEADBEEF, 0xCAFEBABE, 0x01234567, 1, 0x89ABCDEF,
            0x0F1E2D3C, 2, 0x55, 0xFED, 1, 0, 0, 0xBEAD, 0x5A, 0,
        ],
    };
    let mut bits = String::new();
    bits += "00000010"; // edition
    bits += "101"; // status 5
    bits += "1"; // flag
    bits += "101010111100"; // PC ABC
    bits += "0001001000110100010101100111100010011010"; // age
    bits += "10000000000"; // left 1024
    bits += "0101010"; // the command's sector 2A
    bits += "111101111111"; // its buffer F7F
    for digit in [
        "0001", "0010", "0011", "0100", "0101", "0110", "0111", "1000", "1001", "1010", "1011",
        "1100", "1101",
    ] {
        bits += &digit.repeat(8); // R3 to R15
    }
    bits += "101011"; // I/O 0 to 5
    bits += "110111101111"; // irqhandler DEF
    bits += "000100100011"; // irqreturn 123
    bits += "11011110101011011011111011101111"; // clks
    bits += "11001010111111101011101010111110"; // leds
    bits += "00000001001000110100010101100111"; // display7seg
    bits += "1"; // timerenable
    bits += "10001001101010111100110111101111"; // timercurrent
    bits += "00001111000111100010110100111100"; // timermax
    bits += "10"; // diskcmd 2
    bits += "1010101"; // disksector 55
    bits += "111111101101"; // diskbuffer FED
    bits += "1"; // diskstatus
    bits += "1011111010101101"; // monitoraddr
    bits += "01011010"; // monitordata
    bits += "00000"; // five zero bits
    assert_eq!(bits.len(), 752);
    let expected: Vec<u8> = (0..94)
        .map(|byte| u8::from_str_radix(&bits[byte * 8..byte * 8 + 8], 2).unwrap())
        .collect();
    assert_eq!(saved(&record).unwrap().to_vec(), expected);
    let answer = read(&expected);
    assert_eq!((answer.refusal, answer.record), (None, record));
}

#[test]
fn s5_an_image_trip_sets_the_high_bits_to_zero() {
    let mut image = vec![0xFFFF_1234_5678_9ABC; 4096];
    let mut text = vec![0; 4096 * 13];
    write_image(&image, &mut text).unwrap();
    read_image(&text, &mut image).unwrap();
    assert!(image.iter().all(|word| *word == 0x1234_5678_9ABC));
}

fn printed(input: &str) -> String {
    String::from_utf8(simlog(input.as_bytes())).unwrap()
}

#[test]
fn x1_refused_and_budget_spent() {
    assert_eq!(
        printed("000000000000\n000000000000\n00000000000\n"),
        "N 9 3\n"
    );
    assert_eq!(printed("\n"), "N 9 1\n");
    // an empty file: the machine adds zeros up to the budget
    let text = printed("");
    assert!(text.ends_with("\nE 0 100000 97656\n"));
    assert_eq!(text.len(), 100_000 * T_BYTES + "E 0 100000 97656\n".len());
    // faults
    assert!(printed("160000000000\n").ends_with("\nE 2 1 1\n"));
}

#[test]
fn x2_the_whole_log_and_any_length() {
    let full = "150000000000\n".repeat(4096);
    assert!(printed(&full).ends_with("\nE 1 1 1\n"));
    assert_eq!(printed(&format!("{full}150000000000\n")), "N 10 4097\n");
    assert_eq!(printed(&format!("bad\n{full}{full}")), "N 9 1\n");
    assert_eq!(printed(&"x".repeat(1_000_000)), "N 9 1\n");
    // leds counted up in each cycle: T, H and L each time
    // 0: add $v0, $v0, $imm1, $zero, 1, 0; 1: out leds; 2: beq to 0
    let text = printed("003310001000\n140013009000\n090001000000\n");
    assert_eq!(only(&text, 'T').len(), 100_000);
    assert_eq!(only(&text, 'H').len(), 33_333);
    assert_eq!(only(&text, 'L').len(), 33_333);
    assert!(text.contains("\nH 99997 WRITE leds 00008235\nL 99997 00008235\n"));
}

#[test]
fn x3_halves_up() {
    // age×125/128: 1 → 0.98, 2 → 1.95, 64 → 62.5, 128 → 125, 192 → 187.5
    for (age, ms) in [
        (0, 0),
        (1, 1),
        (2, 2),
        (3, 3),
        (63, 62),
        (64, 63),
        (65, 63),
        (128, 125),
        (192, 188),
        (1024, 1000),
        (100_000, 97_656),
    ] {
        assert_eq!(milliseconds(age), ms, "{age}");
    }
    // 2^40-1 cycles: (2^40-1)×125/128 = 1073741824000 - 0.98 → 1073741823999
    assert_eq!(milliseconds((1 << 40) - 1), 1_073_741_823_999);
}

/// An image of words that mostly mean something, for lists of calls.
fn some_image(numbers: &mut Numbers) -> Vec<u64> {
    (0..4096)
        .map(|_| {
            let opcode = match numbers.below(100) {
                0 => 21,
                1 => numbers.below(256),
                2..=30 => 19 + numbers.below(2),
                31..=34 => 18,
                _ => numbers.below(18),
            };
            // in and out: number from $imm1 and $zero, mostly listed
            if opcode == 19 || opcode == 20 {
                let number = if numbers.below(60) == 0 {
                    18
                } else {
                    numbers.below(18)
                };
                let number = if numbers.below(5) == 0 {
                    20 + numbers.below(3)
                } else {
                    number
                };
                return opcode << 40
                    | numbers.below(16) << 36
                    | 1 << 32
                    | numbers.below(16) << 24
                    | number << 12
                    | numbers.below(1 << 12);
            }
            // lw and sw: mostly within the data memory
            if opcode == 16 || opcode == 17 {
                return opcode << 40
                    | numbers.below(16) << 36
                    | 1 << 32
                    | numbers.below(16) << 24
                    | numbers.below(2048) << 12
                    | numbers.below(1 << 12);
            }
            // bits above 47 too
            numbers.below(1 << 16) << 48 | opcode << 40 | numbers.below(1 << 40)
        })
        .collect()
}

/// Demand 3 over lists of runs and return trips, refused ones included, against the plain machine.
#[test]
fn lists_of_calls_and_the_plain_machine() {
    let mut numbers = Numbers(2023);
    let mut most_cycles = 0;
    for _ in 0..60 {
        let mut lab = Lab::empty();
        lab.image = some_image(&mut numbers);
        for word in lab.data.iter_mut().chain(lab.disk.iter_mut()) {
            *word = numbers.next() as u32;
        }
        for byte in lab.frame.iter_mut() {
            *byte = numbers.next() as u8;
        }
        let mut cycle = 0;
        for _ in 0..40 {
            cycle += 1 + numbers.below(100);
            lab.irq2.push(cycle);
        }
        let mut plain = PlainMachine::new(&lab.image, &lab.data, &lab.disk, &lab.frame, &lab.irq2);
        let mut joined = Vec::new();
        let mut cycles = 0;
        for _ in 0..40 {
            match numbers.below(8) {
                0 => {
                    // a return trip of the record
                    let mut bytes = [0; 94];
                    save(&lab.record, &mut bytes).unwrap();
                    lab.record = read(&bytes).record;
                }
                1 => {
                    let mut text = vec![0; 4096 * 13];
                    write_image(&lab.image, &mut text).unwrap();
                    let mut again = vec![5; 4096];
                    read_image(&text, &mut again).unwrap();
                    lab.image = again;
                }
                2 => {
                    let mut text = vec![0; 4096 * 9];
                    write_data(&lab.data, &mut text).unwrap();
                    let mut again = vec![5; 4096];
                    read_data(&text, &mut again).unwrap();
                    lab.data = again;
                    let first = numbers.below(128) as usize;
                    let count = 1 + numbers.below(128 - first as u64) as usize;
                    let mut text = vec![0; count * 128 * 9];
                    write_disk(&lab.disk, first, count, &mut text).unwrap();
                    let part = &mut lab.disk[first * 128..(first + count) * 128];
                    part.fill(5);
                    read_disk(&text, part).unwrap();
                    let mut text = vec![0; 65536 * 3];
                    write_frame(&lab.frame, &mut text).unwrap();
                    let mut again = vec![5; 65536];
                    read_frame(&text, &mut again).unwrap();
                    lab.frame = again;
                }
                3 => {
                    // a refused run
                    let answer = run(
                        &lab.record,
                        &lab.image,
                        &mut lab.data,
                        &mut lab.disk,
                        &mut lab.frame,
                        &[3, 3],
                        9,
                        &mut [0; 999],
                    );
                    assert_eq!(answer.refusal, no(12));
                    assert_eq!(answer.record, lab.record);
                }
                _ => {
                    let mut log = vec![0; numbers.below(40_000) as usize];
                    let budget = numbers.below(300);
                    let answer = run(
                        &lab.record,
                        &lab.image,
                        &mut lab.data,
                        &mut lab.disk,
                        &mut lab.frame,
                        &lab.irq2,
                        budget,
                        &mut log,
                    );
                    assert_eq!(answer.refusal, None);
                    match answer.reason {
                        0 => assert_eq!(answer.cycles, budget),
                        1 => assert_ne!(answer.record.status, 0),
                        _ => assert_eq!(answer.reason, 2),
                    }
                    joined.extend_from_slice(&log[..answer.log_bytes]);
                    cycles += answer.cycles;
                    lab.record = answer.record;
                }
            }
        }
        for _ in 0..cycles {
            assert!(plain.step());
        }
        assert_eq!(plain.record, lab.record);
        assert_eq!(plain.log, joined);
        assert_eq!(
            (&plain.data, &plain.disk, &plain.frame),
            (&lab.data, &lab.disk, &lab.frame)
        );
        most_cycles = most_cycles.max(cycles);
    }
    assert!(most_cycles > 1000, "{most_cycles}");
}

/// The plain machine "makes no cycle after either".
#[test]
fn the_plain_machine_stops() {
    let lab = Lab::of("halt $zero, $zero, $zero, $zero, 0, 0");
    let mut plain = PlainMachine::new(&lab.image, &lab.data, &lab.disk, &lab.frame, &[]);
    assert!(plain.step());
    assert!(!plain.step());
    assert_eq!(plain.record.age, 1);
    let mut plain = PlainMachine::new(&lab.image, &lab.data, &lab.disk, &lab.frame, &[]);
    plain.record.age = (1 << 40) - 1;
    assert!(!plain.step());
}
