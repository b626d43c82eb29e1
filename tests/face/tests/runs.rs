//! Runs from any record, and whole lists of calls, compared with the second implementation. Lent memory holds a pattern before each call.

use face::random::{turns, Met, Random};
use face::{numbers_of, record_of, texts, Lent, Numbers};
use reference::run::run;

/// A lab whose memories hold something.
fn lent(r: &mut Random, record: Numbers, log: usize) -> Lent {
    let length = 1 + r.below(60) as usize;
    let image = texts::program(r, length);
    lent_image(r, record, image, log)
}

/// The same with this image.
fn lent_image(r: &mut Random, record: Numbers, image: Vec<u64>, log: usize) -> Lent {
    let fill = r.next() as u32;
    Lent {
        record: record.to_vec(),
        image,
        memory: (0..4096).map(|i| fill.wrapping_mul(i)).collect(),
        disk: (0..16384).map(|i| fill ^ i).collect(),
        frame: (0..65536).map(|i| (i as u32 ^ fill) as u8).collect(),
        log: vec![0xA5; log],
        report: vec![0xA5; 3],
    }
}

/// One run with both; gives the number.
fn compare(ours: &mut Lent, irq2: &[u64], budget: u64) -> u32 {
    let mut theirs = ours.clone();
    let number = face::run(ours, irq2, budget);
    let expected = match record_of(&theirs.record) {
        Some(record) => {
            let a = run(&record, &theirs.image, &mut theirs.memory, &mut theirs.disk, &mut theirs.frame, irq2, budget, &mut theirs.log);
            if a.refusal.is_none() {
                theirs.record = numbers_of(&a.record).to_vec();
            }
            theirs.report = vec![a.cycles, a.log_bytes as u64, a.reason as u64];
            a.refusal.map_or(0, |no| no.number)
        }
        None => {
            theirs.report = vec![0; 3];
            let lengths = theirs.image.len() == 4096 && theirs.memory.len() == 4096 && theirs.disk.len() == 16384 && theirs.frame.len() == 65536;
            if !lengths { 1 } else if irq2.windows(2).any(|w| w[1] <= w[0]) { 12 } else { 13 }
        }
    };
    assert_eq!(number, expected);
    assert_eq!(ours.report, theirs.report);
    assert_eq!(ours.record, theirs.record);
    assert!(ours.log == theirs.log, "ours\n{}theirs\n{}", String::from_utf8_lossy(&ours.log), String::from_utf8_lossy(&theirs.log));
    assert!(*ours == theirs, "the memories differ");
    number
}

#[test]
fn single_runs() {
    turns(2_000, "single_runs", |seed| {
        let r = &mut Random::new(seed);
        let record = texts::record(r);
        let irq2 = texts::irq2(r, record[3]);
        let log = if r.once_in(3) { r.below(1000) } else { 231 * 60 } as usize;
        let mut ours = lent(r, record, log);
        if r.once_in(30) {
            match r.below(4) {
                0 => ours.image.truncate(4095),
                1 => ours.memory.push(0),
                2 => ours.disk.truncate(128),
                _ => ours.frame.push(0),
            }
        }
        let budget = if r.once_in(20) { u64::MAX } else { r.below(60) };
        compare(&mut ours, &irq2, budget);
    });
}

/// Runs of some hundred cycles from records of any sector and buffer, busy for the most part, on programs that keep the disk at work: up to and over the end of commands, cut by the
/// budget or by the log's space.
#[test]
fn the_disk_at_work() {
    let met = Met::of(&["begun busy", "ended busy", "cut by the budget", "cut by the log", "ended in mid-command", "disk words changed", "a command ended", "a sector register not the command's"]);
    let is_usual = turns(1_000, "the_disk_at_work", |seed| {
        let r = &mut Random::new(seed);
        let mut record = [0; 40];
        if !r.once_in(4) {
            record = texts::sound_record(r, |n| n[0] == 0 && n[4] > 0);
            record[2] = r.below(60);
        }
        let irq2 = { let mut l = texts::irq2(r, record[3]); l.sort_unstable(); l.dedup(); l };
        let length = 1 + r.below(60) as usize;
        let image = texts::disk_program(r, length);
        let log = if r.once_in(3) { r.below(40_000) } else { 231 * 1300 } as usize;
        let mut ours = lent_image(r, record, image, log);
        let before = ours.clone();
        if record[4] > 0 {
            met.one("begun busy");
            if record[5] != record[face::IO_0 + 15] {
                met.one("a sector register not the command's");
            }
        }
        let budget = if r.once_in(2) { r.below(60) } else { r.below(1300) };
        assert_eq!(compare(&mut ours, &irq2, budget), 0);
        met.more("disk words changed", (0..16384).filter(|w| ours.disk[*w] != before.disk[*w]).count() as u64);
        if ours.record[4] > 0 {
            met.one("ended busy");
        }
        if ours.record[4] > 0 && ours.record[4] < 1024 - 8 {
            met.one("ended in mid-command");
            match ours.report[2] {
                0 => met.one("cut by the budget"),
                2 => met.one("cut by the log"),
                _ => {}
            }
        }
        if before.record[4] > 0 && ours.report[0] >= before.record[4] {
            met.one("a command ended");
        }
    });
    met.each(is_usual, 20);
}

/// One cycle in which a word moves, and in which the instruction loads or stores that word or one beside it, or stops the machine.
#[test]
fn the_word_of_a_cycle() {
    let met = Met::of(&["lw", "sw", "halt", "fault", "read", "write", "the word itself", "the last word"]);
    let is_usual = turns(1_000, "the_word_of_a_cycle", |seed| {
        let r = &mut Random::new(seed);
        let k = if r.once_in(4) { 127 } else { r.below(128) };
        let mut record = texts::sound_record(r, |n| n[0] == 0 && n[4] > 0 && n[3] < 1 << 30);
        record[1] = 1;
        record[4] = 1024 - 8 * k - 7;
        let moved = record[6] + k;
        let address = (moved + 4096 - r.below(3) + r.below(3)) % 4096;
        record[face::R3] = address;
        let mut ours = lent(r, record, 500);
        let (op, name) = [(16u64, "lw"), (17, "sw"), (21, "halt"), (22, "fault")][r.below(4) as usize];
        // lw and sw with rd $a0, the address in $v0 and rm $zero; the fields are nothing to the others.
        ours.image[record[2] as usize] = op << 40 | 4 << 36 | 3 << 32;
        met.one(name);
        met.one(if record[face::IO_0 + 14] == 1 { "read" } else { "write" });
        if address == moved && op < 18 {
            met.one("the word itself");
        }
        if k == 127 {
            met.one("the last word");
        }
        assert_eq!(compare(&mut ours, &[], 1), 0);
        assert_eq!(ours.report[0], 1);
    });
    met.each(is_usual, 20);
}

/// Saves the record and reads the bytes back.
fn record_trip(lab: &mut Lent) {
    let mut bytes = [0xA5; 94];
    assert_eq!(face::save(&lab.record, &mut bytes), 0);
    let mut back = [0xA5; 40];
    assert_eq!(face::load(&bytes, &mut back), 0);
    assert_eq!(back.to_vec(), lab.record);
    lab.record = back.to_vec();
}

/// Writes a memory as text and reads it into another slice, which takes its place.
fn memory_trip(r: &mut Random, lab: &mut Lent) {
    let mut text = vec![0xA5; 3 * 65536];
    match r.below(4) {
        0 => {
            let n = face::write_image(&lab.image, &mut text).count as usize;
            let mut back = vec![9; 4096];
            assert_eq!(face::read_image(&text[..n], &mut back).number, 0);
            lab.image = back;
        }
        1 => {
            let n = face::write_data(&lab.memory, &mut text).count as usize;
            let mut back = vec![9; 4096];
            assert_eq!(face::read_data(&text[..n], &mut back).number, 0);
            lab.memory = back;
        }
        2 => {
            let (first, sectors) = (r.below(120), 1 + r.below(8));
            let n = face::write_disk(&lab.disk, first, sectors, &mut text).count as usize;
            let part = 128 * first as usize..128 * (first + sectors) as usize;
            let mut back = vec![9; part.len()];
            assert_eq!(face::read_disk(&text[..n], &mut back).number, 0);
            lab.disk[part].copy_from_slice(&back);
        }
        _ => {
            let n = face::write_frame(&lab.frame, &mut text).count as usize;
            let mut back = vec![9; 65536];
            assert_eq!(face::read_frame(&text[..n], &mut back).number, 0);
            lab.frame = back;
        }
    }
}

/// A call that is refused, and changes nothing.
fn refused_call(r: &mut Random, lab: &mut Lent, irq2: &[u64]) {
    let before = lab.clone();
    let number = match r.below(5) {
        0 => face::run(lab, &[5, 5], 10),
        1 => {
            let mut short = Lent { memory: lab.memory[..4095].to_vec(), ..lab.clone() };
            let number = face::run(&mut short, irq2, 10);
            assert_eq!(short.memory, lab.memory[..4095].to_vec());
            lab.report = short.report;
            number
        }
        2 => face::save(&lab.record, &mut vec![0; [90, 91, 93, 95][r.below(4) as usize]]),
        3 => face::write_data(&lab.memory, &mut vec![0; 4096 * 9 - 1]).number,
        _ => face::read_data(b"0000000G\n", &mut lab.memory).number,
    };
    assert_ne!(number, 0);
    lab.report.clone_from(&before.report);
    assert!(*lab == before, "a refused call changed something");
}

/// Demand 3 by running: after a list of runs, trips and refused calls the joined logs, the record and the memories are those of the plain machine after as many cycles as the
/// runs reported. Each run is lent up to so many log bytes and a budget below this one. `after` sees the lab after each run, with the reason.
fn list_of_calls(r: &mut Random, mut lab: Lent, most_calls: u64, most_log: u64, budgets: u64, after: impl Fn(&Lent, u64)) {
    let irq2 = { let mut l = texts::irq2(r, 0); l.sort_unstable(); l.dedup(); l };
    let mut plain = reference::machine::PlainMachine::new(&lab.image, &lab.memory, &lab.disk, &lab.frame, &irq2);
    let (mut joined, mut total) = (Vec::new(), 0);
    for _ in 0..1 + r.below(most_calls) {
        match r.below(6) {
            0 => record_trip(&mut lab),
            1 => memory_trip(r, &mut lab),
            2 => refused_call(r, &mut lab, &irq2),
            _ => {
                lab.log = vec![0xA5; r.below(most_log) as usize];
                lab.report = vec![0xA5; 3];
                assert_eq!(face::run(&mut lab, &irq2, r.below(budgets)), 0);
                joined.extend_from_slice(&lab.log[..lab.report[1] as usize]);
                total += lab.report[0];
                after(&lab, lab.report[2]);
            }
        }
    }
    for _ in 0..total {
        assert!(plain.step(), "a cycle that the plain machine doesn't make");
    }
    assert!(joined == plain.log, "the joined logs differ");
    assert_eq!(lab.record, numbers_of(&plain.record).to_vec());
    assert!(lab.memory == plain.data && lab.disk == plain.disk && lab.frame == plain.frame, "the memories differ");
}

#[test]
fn lists_of_calls() {
    turns(300, "lists_of_calls", |seed| {
        let r = &mut Random::new(seed);
        let lab = lent(r, [0; 40], 0);
        list_of_calls(r, lab, 12, 2000, 30, |_, _| ());
    });
}

/// The same with the disk at work and the calls cut in mid-sector.
#[test]
fn lists_of_calls_in_mid_sector() {
    let met = Met::of(&["cut by the budget", "cut by the log", "stopped"]);
    let is_usual = turns(150, "lists_of_calls_in_mid_sector", |seed| {
        let r = &mut Random::new(seed);
        let length = 20 + r.below(60) as usize;
        let image = texts::disk_program(r, length);
        let lab = lent_image(r, [0; 40], image, 0);
        list_of_calls(r, lab, 40, 60_000, 400, |lab, reason| {
            if lab.record[4] > 0 && lab.record[4] < 1024 - 8 {
                met.one(["cut by the budget", "stopped", "cut by the log"][reason as usize]);
            }
        });
    });
    met.each(is_usual, 20);
}

#[test]
fn counts_of_numbers() {
    let r = &mut Random::new(1);
    for (numbers, reports) in [(38, 3), (39, 3), (41, 3), (0, 3), (40, 2), (40, 4), (40, 0)] {
        let mut lab = lent(r, [0; 40], 500);
        lab.record = vec![0; numbers];
        lab.report = vec![0xA5; reports];
        let before = lab.clone();
        assert_eq!(face::run(&mut lab, &[], 3), 1);
        if reports == 3 {
            assert_eq!(lab.report, [0, 0, 0]);
        } else {
            assert_eq!(lab.report, before.report);
        }
        lab.report.clone_from(&before.report);
        assert!(lab == before, "a refused run changed something");
    }
}
