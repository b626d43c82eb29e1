//! The programs in examples/: their files are what the assembler makes of their sources, and a run
//! of each leaves what a computation of its own, here, says.

mod common;
use common::*;
use reference::files::*;
use reference::text::lines;

fn file(example: &str, name: &str) -> Option<Vec<u8>> {
    let examples = concat!(env!("CARGO_MANIFEST_DIR"), "/../../examples");
    std::fs::read(format!("{examples}/{example}/{name}")).ok()
}

/// The lines of a memory file up to the last that is not zero.
fn short(text: &[u8]) -> Vec<u8> {
    let all = lines(text);
    let is_zero = |line: &&[u8]| line.iter().all(|byte| *byte == b'0');
    let kept = all.len() - all.iter().rev().take_while(|line| is_zero(line)).count();
    let mut result = all[..kept].join(&b'\n');
    if kept > 0 {
        result.push(b'\n');
    }
    result
}

/// Reads an example's files. The instruction file and the data file (none: zero) must be what the
/// assembler makes of the source.
fn example(name: &str) -> Lab {
    let source = file(name, &format!("{name}.asm")).expect("a source");
    let (image, data) = assembled(&source).expect("a good source");
    let mut text = vec![0; 4096 * 13];
    write_image(&image, &mut text).unwrap();
    assert_eq!(
        file(name, "imemin.txt").expect("an instruction file"),
        short(&text)
    );
    let mut text = vec![0; 4096 * 9];
    write_data(&data, &mut text).unwrap();
    assert_eq!(file(name, "dmemin.txt").unwrap_or_default(), short(&text));

    let mut lab = Lab::empty();
    read_image(&file(name, "imemin.txt").unwrap(), &mut lab.image).unwrap();
    read_data(&file(name, "dmemin.txt").unwrap_or_default(), &mut lab.data).unwrap();
    if let Some(text) = file(name, "diskin.txt") {
        assert_eq!(text, short(&text));
        read_disk(&text, &mut lab.disk).unwrap();
    }
    if let Some(text) = file(name, "irq2in.txt") {
        lab.irq2 = vec![0; lines(&text).len()];
        assert_eq!(read_irq2(&text, &mut lab.irq2), Ok(lab.irq2.len()));
    }
    assert_eq!((&lab.image, &lab.data), (&image, &data));
    lab
}

/// Runs to the halt, in fewer than 100,000 cycles. Gives the log.
fn run_to_halt(lab: &mut Lab) -> String {
    let (log, answer) = lab.run(99_999);
    assert_eq!((answer.reason, answer.record.status), (1, 1));
    log
}

#[test]
fn mulmat() {
    let product = |data: &[u32], i: usize, j: usize| {
        let mut sum = 0i64;
        for k in 0..4 {
            let a = data[0x100 + 4 * i + k] as i32 as i64;
            let b = data[0x110 + 4 * k + j] as i32 as i64;
            sum += a * b;
        }
        sum as i32 as u32
    };
    let mut lab = example("mulmat");
    // The two corners by hand: 1·2 + 2·(-3) + 3·100 + 4·0 and 13·7 + 14·0 + 15·(-1) + 16·1000.
    assert_eq!(product(&lab.data, 0, 0), 296);
    assert_eq!(product(&lab.data, 3, 3), 16_076);

    let mut numbers = Numbers(1);
    for round in 0..5 {
        if round > 0 {
            // other matrices, small enough for no overflow
            for address in 0x100..0x120 {
                lab.data[address] = (numbers.below(20_001) as i32 - 10_000) as u32;
            }
            lab.record = reference::record::Record::fresh();
        }
        let mut expected = lab.clone();
        for i in 0..4 {
            for j in 0..4 {
                expected.data[0x120 + 4 * i + j] = product(&lab.data, i, j);
            }
        }
        run_to_halt(&mut lab);
        assert_eq!(lab.data, expected.data);
        assert_eq!((&lab.disk, &lab.frame), (&expected.disk, &expected.frame));
    }
}

#[test]
fn binom() {
    // Pascal's triangle
    let mut triangle = vec![vec![1u32]];
    for n in 1..=12 {
        let above: &Vec<u32> = &triangle[n - 1];
        let mut row = vec![1; n + 1];
        for k in 1..n {
            row[k] = above[k - 1] + above[k];
        }
        triangle.push(row);
    }
    assert_eq!(triangle[8][3], 56);

    let mut lab = example("binom");
    assert_eq!((lab.data[0x100], lab.data[0x101]), (8, 3));
    run_to_halt(&mut lab);
    assert_eq!(lab.data[0x102], 56);

    for n in 0..=12 {
        for k in 0..=n {
            let mut lab = example("binom");
            lab.data[0x100] = n;
            lab.data[0x101] = k;
            let mut expected = lab.data.clone();
            expected[0x102] = triangle[n as usize][k as usize];
            run_to_halt(&mut lab);
            // The stack holds four words for each of at most n calls below one another.
            let stack = 4096 - 4 * n as usize;
            assert_eq!(lab.data[..stack], expected[..stack], "{n} {k}");
            assert_eq!(lab.r(14), 4096);
        }
    }
}

#[test]
fn circle() {
    for radius in [5, 0, 1, 2, 13, 40] {
        let mut lab = example("circle");
        assert_eq!(lab.data[0x100], 40);
        lab.data[0x100] = radius;
        let data = lab.data.clone();
        let radius = radius as i32;
        let mut expected = vec![0u8; 65536];
        let mut white = 0;
        for line in 0..256i32 {
            for column in 0..256i32 {
                let (dx, dy) = (column - 128, line - 128);
                if dx * dx + dy * dy <= radius * radius {
                    expected[(line * 256 + column) as usize] = 255;
                    white += 1;
                }
            }
        }
        if radius == 5 {
            // By hand, lines from the middle: 11, then twice 9 9 9 7 1.
            assert_eq!(white, 11 + 2 * (9 + 9 + 9 + 7 + 1));
        }
        run_to_halt(&mut lab);
        assert!(lab.frame == expected, "{radius}");
        assert_eq!(lab.data, data);
    }
}

#[test]
fn disktest() {
    let mut lab = example("disktest");
    // The disk file: ten sectors whose words tell their place.
    for sector in 0..128 {
        for w in 0..128 {
            let expected = if sector < 10 {
                0x5EC00000 + sector * 0x1000 + w
            } else {
                0
            };
            assert_eq!(lab.disk[(sector * 128 + w) as usize], expected);
        }
    }
    let log = run_to_halt(&mut lab);
    for sector in 0..128 {
        // sectors 1 to 8 hold what stood one sector before; the others keep theirs
        let from = if (1..=8).contains(&sector) {
            sector - 1
        } else {
            sector
        };
        for w in 0..128 {
            let expected = if from < 10 {
                0x5EC00000 + from * 0x1000 + w
            } else {
                0
            };
            assert_eq!(lab.disk[(sector * 128 + w) as usize], expected);
        }
    }
    // the buffer holds the sector moved last
    for address in 0..4096 {
        let in_buffer = (0x200..0x280).contains(&address);
        let expected = if in_buffer {
            0x5EC00000 + address - 0x200
        } else {
            0
        };
        assert_eq!(lab.data[address as usize], expected);
    }
    // sixteen commands, read and write by turns, none given while the disk is busy
    let commands: Vec<String> = only(&log, 'H')
        .into_iter()
        .filter(|line| line.contains("WRITE diskcmd"))
        .collect();
    assert_eq!(commands.len(), 16);
    let mut last_cycle = 0;
    for (index, line) in commands.iter().enumerate() {
        let fields: Vec<&str> = line.split(' ').collect();
        let cycle: u64 = fields[1].parse().unwrap();
        assert_eq!(
            fields[4],
            if index % 2 == 0 {
                "00000001"
            } else {
                "00000002"
            }
        );
        assert!(index == 0 || cycle > last_cycle + 1024);
        last_cycle = cycle;
    }
}

#[test]
fn timer() {
    let mut lab = example("timer");
    let log = run_to_halt(&mut lab);
    // Enabled in cycle 3, so the timer asks at the end of 3 + 49; the handler begins with cycle 53
    // and its third instruction writes the leds: 55, then every 50 cycles.
    let expected: Vec<String> = (0..10)
        .map(|n| {
            let value = if n % 2 == 0 { "FFFFFFFF" } else { "00000000" };
            format!("L {} {}", 55 + 50 * n, value)
        })
        .collect();
    assert_eq!(only(&log, 'L'), expected);
    // four instructions more up to the halt, which is counted
    assert_eq!(lab.record.age, 55 + 50 * 9 + 4 + 1);
    assert_eq!(lab.record.flag, 1);
}

#[test]
fn diskirq() {
    let mut lab = example("diskirq");
    let log = run_to_halt(&mut lab);
    for i in 0..128usize {
        let expected = (i * i + 7) as u32;
        assert_eq!(lab.data[0x200 + i], expected);
        assert_eq!(lab.data[0x300 + i], expected);
        assert_eq!(lab.disk[5 * 128 + i], expected);
    }
    let count = |words: &[u32]| words.iter().filter(|word| **word != 0).count();
    assert_eq!((count(&lab.data), count(&lab.disk)), (256, 128));
    // The first command in cycle 1 + 4·128 + 4 = 517; its interrupt is entered in 517 + 1025, the
    // display written two cycles later and the second command five cycles later.
    assert_eq!(only(&log, 'D'), ["D 1544 00000001", "D 2574 00000002"]);
    assert!(log.contains("\nH 517 WRITE diskcmd 00000002\n"));
    assert!(log.contains("\nH 1547 WRITE diskcmd 00000001\n"));
    assert_eq!((lab.r(10), lab.r(12)), (2, 1));
    assert_eq!(lab.record.flag, 0);
}

#[test]
fn irq2() {
    let mut lab = example("irq2");
    assert_eq!(lab.irq2, [50, 120, 200, 201, 280, 283, 350]);
    let log = run_to_halt(&mut lab);
    // The handler writes the display in its third cycle. 201 is lost: status 1 already, cleared in
    // 201. 283 comes in reti's cycle; the handler begins again in 284.
    assert_eq!(
        only(&log, 'D'),
        [
            "D 52 00000001",
            "D 122 00000002",
            "D 202 00000003",
            "D 282 00000004",
            "D 286 00000005",
            "D 352 00000006"
        ]
    );
    assert_eq!(lab.record.io[5], 0);
}

#[test]
fn allirqs() {
    let mut lab = example("allirqs");
    assert_eq!(lab.irq2, [1031, 1068]);
    // At the end of cycle 1030 timer and disk ask, at the beginning of 1031 the line.
    lab.run(1030);
    assert_eq!(lab.record.io[3..6], [0, 0, 0]);
    lab.run(1);
    assert_eq!(lab.record.io[3..6], [1, 1, 0]);
    lab.run(1);
    assert_eq!(
        (lab.record.io[3..6].to_vec(), lab.record.flag),
        (vec![1, 1, 1], 1)
    );
    let log = run_to_halt(&mut lab);
    // Entered in 1031 (timer), 1041 (disk), 1050 (timer), 1061 (line), 1070 (line), each in the
    // cycle after the reti before; the display is written one cycle before reti.
    assert_eq!(
        only(&log, 'D'),
        [
            "D 1039 00000001",
            "D 1048 00000012",
            "D 1059 00000121",
            "D 1068 00001213",
            "D 1077 00012133"
        ]
    );
    // reti in 1078, then the main loop's blt and halt
    assert_eq!(lab.record.age, 1081);
    assert_eq!(
        (lab.record.io[3..6].to_vec(), lab.record.flag),
        (vec![0, 0, 0], 0)
    );
}

#[test]
fn lights() {
    let mut lab = example("lights");
    let log = run_to_halt(&mut lab);
    // Seven cycles a step from cycle 1 on: leds in the second, display in the fifth of them.
    let mut leds: Vec<String> = (0..32)
        .map(|place| format!("L {} {:08X}", 2 + 7 * place, 1u32 << place))
        .collect();
    leds.push(format!("L {} 00000000", 1 + 7 * 32));
    assert_eq!(only(&log, 'L'), leds);
    let display: Vec<String> = (1..16)
        .map(|half| format!("D {} {:08X}", 5 + 7 * 2 * half, half))
        .collect();
    assert_eq!(only(&log, 'D'), display);
    // every out logs H: one, three a step, one
    assert_eq!(only(&log, 'H').len(), 1 + 3 * 32 + 1);
    assert_eq!(lab.record.age, 1 + 7 * 32 + 2);
}

/// The program course runs copies of the examples' files.
#[test]
fn course_has_the_files() {
    let data = concat!(env!("CARGO_MANIFEST_DIR"), "/../../crates/check_examples/data");
    let mut count = 0;
    for folder in std::fs::read_dir(data).expect("course's data") {
        let folder = folder.unwrap();
        let example = folder.file_name().into_string().unwrap();
        // Files that are to be refused are no examples.
        if example.starts_with("bad_") {
            continue;
        }
        for copy in std::fs::read_dir(folder.path()).unwrap() {
            let copy = copy.unwrap();
            let name = copy.file_name().into_string().unwrap();
            let mut text = std::fs::read(copy.path()).unwrap();
            // There the radius is 5, so that the log is short; the example draws 40.
            if example == "circle" && name == "dmemin.txt" {
                assert!(text.ends_with(b"00000005\n"));
                let radius = text.len() - 3;
                text[radius..].copy_from_slice(b"28\n");
            }
            assert!(file(&example, &name) == Some(text), "{example}/{name}");
            count += 1;
        }
    }
    // nine programs, four with data, one with a disk, two with irq2 cycles
    assert_eq!(count, 9 + 4 + 1 + 2);
}
