//! The open points M1 to M20; of M6, what D1 (open_points_disk.rs) leaves of it.

mod common;
use common::*;
use reference::names::*;

/// `out` of the word in $a0 to an I/O number.
fn out_a0(number: usize) -> String {
    format!("out $zero, $zero, $imm1, $a0, {number}, 0\n")
}

#[test]
fn m1_h_shows_all_bits() {
    let mut lab = Lab::of(&out_a0(0));
    lab.set_r(4, 0xFFFFFFFE);
    assert_eq!(lab.cycle(), "H 0 WRITE irq0enable FFFFFFFE");
    assert_eq!(lab.record.io[IRQ0ENABLE], 0);

    // ignored: diskstatus
    let mut lab = Lab::of(&out_a0(17));
    lab.set_r(4, 0x12345677);
    assert_eq!(lab.cycle(), "H 0 WRITE diskstatus 12345677");
    assert_eq!(lab.record.io[DISKSTATUS], 0);

    // ignored: diskcmd while busy
    let mut lab = Lab::of(&out_a0(14).repeat(2));
    lab.set_r(4, 0xABCDEF02);
    assert_eq!(lab.cycle(), "H 0 WRITE diskcmd ABCDEF02");
    lab.set_r(4, 0xABCDEF01);
    assert_eq!(lab.cycle(), "H 1 WRITE diskcmd ABCDEF01");
    assert_eq!((lab.record.io[DISKCMD], lab.record.left), (2, 1023));

    // an even monitorcmd
    let mut lab = Lab::of(&out_a0(22));
    lab.set_r(4, 0xFFFFFFF0);
    lab.record.io[MONITORDATA] = 9;
    assert_eq!(lab.cycle(), "H 0 WRITE monitorcmd FFFFFFF0");
    assert_eq!(lab.frame[0], 0);

    // status 5
    let mut lab = Lab::of(&out_a0(14));
    lab.set_r(4, 0xFFFFFFF1);
    lab.record.io[DISKBUFFER] = 4095;
    assert_eq!(lab.cycle(), "H 0 WRITE diskcmd FFFFFFF1");
    assert_eq!(lab.record.status, 5);
}

#[test]
fn out_keeps_the_low_bits_of_each_width() {
    for (number, kept) in [
        (0, 1),
        (1, 1),
        (2, 1),
        (3, 1),
        (4, 1),
        (5, 1),
        (6, 0xFFF),
        (7, 0xFFF),
        (9, 0xFFFFFFFF),
        (10, 0xFFFFFFFF),
        (12, 0xFFFFFFFF),
        (13, 0xFFFFFFFF),
        (15, 0x7F),
        (16, 0xFFF),
        (20, 0xFFFF),
        (21, 0xFF),
        (22, 0),
        (14, 0),
        (17, 0),
    ] {
        let mut lab = Lab::of(&out_a0(number));
        lab.set_r(4, 0xFFFFFFFF);
        lab.cycle();
        assert_eq!((lab.record.status, lab.record.pc), (0, 1));
        assert_eq!(lab.record.io[number], kept, "{number}");
    }
    // timerenable counts in the same cycle; clks gets one more
    let mut lab = Lab::of(&out_a0(11));
    lab.set_r(4, 0xFFFFFFFF);
    lab.record.io[TIMERMAX] = 5;
    lab.cycle();
    assert_eq!(
        (lab.record.io[TIMERENABLE], lab.record.io[TIMERCURRENT]),
        (1, 1)
    );
}

#[test]
fn m2_the_cycle_is_the_age() {
    let mut lab = Lab::of(&format!("{}{}{}", out_a0(8), out_a0(9), out_a0(10)));
    lab.set_r(4, 1000);
    assert_eq!(lab.cycle(), "H 0 WRITE clks 000003E8");
    assert_eq!(lab.cycle(), "H 1 WRITE leds 000003E8|L 1 000003E8");
    assert_eq!(lab.cycle(), "H 2 WRITE display7seg 000003E8|D 2 000003E8");
    assert_eq!(lab.record.io[CLKS], 1003);
}

#[test]
fn m3_no_status_5_while_busy_or_for_0_and_3() {
    let mut lab = Lab::of(&out_a0(14));
    lab.set_r(4, 1);
    lab.record.io[DISKBUFFER] = 4095;
    lab.record.io[DISKSTATUS] = 1;
    lab.record.io[DISKCMD] = 2;
    lab.record.left = 7;
    lab.cycle();
    assert_eq!(
        (lab.record.status, lab.record.pc, lab.record.left),
        (0, 1, 6)
    );
    assert_eq!(lab.record.io[DISKCMD], 2);
    for value in [0, 3, 4, 7] {
        let mut lab = Lab::of(&out_a0(14));
        lab.set_r(4, value);
        lab.record.io[DISKBUFFER] = 4095;
        lab.cycle();
        assert_eq!(
            (lab.record.status, lab.record.pc, lab.record.left),
            (0, 1, 0)
        );
        assert_eq!((lab.record.io[DISKCMD], lab.record.io[DISKSTATUS]), (0, 0));
    }
}

#[test]
fn m4_the_low_two_bits() {
    for (value, kept) in [
        (5, 1),
        (6, 2),
        (4, 0),
        (7, 0),
        (0xFFFFFFFD, 1),
        (0x80000002, 2),
    ] {
        let mut lab = Lab::of(&out_a0(14));
        lab.set_r(4, value);
        lab.disk[128 * 3 + 5] = 77;
        lab.data[200 + 5] = 88;
        lab.record.io[DISKSECTOR] = 3;
        lab.record.io[DISKBUFFER] = 200;
        lab.cycle();
        assert_eq!(lab.record.io[DISKCMD], kept);
        assert_eq!(lab.record.left, if kept == 0 { 0 } else { 1024 });
        // word 5 moves in cycle 8·(5+1), by the command
        lab.run(47);
        assert_eq!((lab.disk[128 * 3 + 5], lab.data[200 + 5]), (77, 88));
        lab.cycle();
        let expected = match kept {
            1 => (77, 77),
            2 => (88, 88),
            _ => (77, 88),
        };
        assert_eq!((lab.disk[128 * 3 + 5], lab.data[200 + 5]), expected);
    }
}

#[test]
fn m5_sector_and_buffer_take_writes_while_busy() {
    let mut lab = Lab::of(&format!("{}{}{}", out_a0(14), out_a0(15), out_a0(16)));
    lab.set_r(4, 1);
    lab.cycle();
    lab.set_r(4, 0xFFF);
    lab.cycle();
    lab.cycle();
    assert_eq!(
        (lab.record.io[DISKSECTOR], lab.record.io[DISKBUFFER]),
        (127, 4095)
    );
    assert_eq!((lab.record.status, lab.record.left), (0, 1022));
    // a record busy with such a buffer is sound, the command ends as usual
    lab.run(1022);
    assert_eq!(
        (
            lab.record.status,
            lab.record.left,
            lab.record.io[IRQ1STATUS]
        ),
        (0, 0, 1)
    );
}

#[test]
fn m6_diskcmd_reads_back_and_the_whole_sector_moves() {
    let mut lab = Lab::of(&format!("{}in $v0, $zero, $imm1, $zero, 14, 0", out_a0(14)));
    lab.set_r(4, 1);
    for w in 0..16384 {
        lab.disk[w] = w as u32 + 1;
    }
    lab.record.io[DISKSECTOR] = 127;
    lab.record.io[DISKBUFFER] = 10;
    lab.cycle();
    assert_eq!(lab.cycle(), "H 1 READ diskcmd 00000001");
    assert_eq!(lab.r(3), 1);
    lab.run(1023);
    assert_eq!((lab.record.age, lab.record.left), (1025, 0));
    for w in 0..4096 {
        let expected = if (10..138).contains(&w) {
            16256 + (w - 10) + 1
        } else {
            0
        };
        assert_eq!(lab.data[w as usize], expected);
    }

    let mut lab = Lab::of(&format!("{}in $v0, $zero, $imm1, $zero, 14, 0", out_a0(14)));
    lab.set_r(4, 2);
    for w in 0..4096 {
        lab.data[w] = w as u32 + 1;
    }
    lab.record.io[DISKSECTOR] = 2;
    lab.record.io[DISKBUFFER] = 3968;
    lab.cycle();
    assert_eq!(lab.cycle(), "H 1 READ diskcmd 00000002");
    lab.run(1023);
    assert_eq!((lab.record.age, lab.record.left), (1025, 0));
    for w in 0..16384 {
        let expected = if (256..384).contains(&w) {
            3968 + (w - 256) + 1
        } else {
            0
        };
        assert_eq!(lab.disk[w as usize], expected);
    }
}

#[test]
fn m7_the_last_busy_cycle() {
    // The command in cycle 0; in cycle 1024 left reaches 0, diskstatus still reads 1 there and a
    // new command is ignored.
    let mut lab = Lab::empty();
    lab.image[0] = word("out $zero, $imm1, $zero, $imm2, 14, 1");
    lab.image[1024] = word("out $zero, $imm1, $zero, $imm2, 14, 2");
    lab.image[1025] = word("out $zero, $imm1, $zero, $imm2, 14, 2");
    lab.cycle();
    assert_eq!(lab.record.left, 1024);
    lab.run(1023);
    assert_eq!((lab.record.age, lab.record.left), (1024, 1));
    assert_eq!(
        (lab.record.io[DISKSTATUS], lab.record.io[IRQ1STATUS]),
        (1, 0)
    );
    lab.cycle();
    assert_eq!(
        (
            lab.record.left,
            lab.record.io[DISKCMD],
            lab.record.io[DISKSTATUS]
        ),
        (0, 0, 0)
    );
    assert_eq!(lab.record.io[IRQ1STATUS], 1);
    lab.cycle();
    assert_eq!(
        (
            lab.record.left,
            lab.record.io[DISKCMD],
            lab.record.io[DISKSTATUS]
        ),
        (1024, 2, 1)
    );
}

#[test]
fn m8_clks() {
    let mut lab = Lab::of(&format!(
        "in $v0, $zero, $imm1, $zero, 8, 0\nin $v0, $zero, $imm1, $zero, 8, 0\n{}\
         in $v0, $zero, $imm1, $zero, 8, 0\n",
        out_a0(8)
    ));
    assert_eq!(lab.cycle(), "H 0 READ clks 00000000");
    assert_eq!(lab.cycle(), "H 1 READ clks 00000001");
    lab.set_r(4, 0xFFFFFFFF);
    lab.cycle();
    assert_eq!(lab.record.io[CLKS], 0);
    assert_eq!(lab.cycle(), "H 3 READ clks 00000000");
}

#[test]
fn m9_the_timer_sees_this_cycles_out() {
    // timermax 0 fires each cycle
    let mut lab = Lab::of(&out_a0(11));
    lab.set_r(4, 1);
    lab.cycle();
    assert_eq!(
        (lab.record.io[IRQ0STATUS], lab.record.io[TIMERCURRENT]),
        (1, 0)
    );
    lab.record.io[IRQ0STATUS] = 0;
    lab.cycle();
    assert_eq!(
        (lab.record.io[IRQ0STATUS], lab.record.io[TIMERCURRENT]),
        (1, 0)
    );
    // timercurrent written in this cycle
    let mut lab = Lab::of(&out_a0(12));
    lab.set_r(4, 50);
    lab.record.io[TIMERENABLE] = 1;
    lab.record.io[TIMERMAX] = 50;
    lab.cycle();
    assert_eq!(
        (lab.record.io[IRQ0STATUS], lab.record.io[TIMERCURRENT]),
        (1, 0)
    );
    // timermax written in this cycle
    let mut lab = Lab::of(&out_a0(13));
    lab.set_r(4, 50);
    lab.record.io[TIMERENABLE] = 1;
    lab.record.io[TIMERCURRENT] = 50;
    lab.cycle();
    assert_eq!(
        (lab.record.io[IRQ0STATUS], lab.record.io[TIMERCURRENT]),
        (1, 0)
    );
    // switched off in this cycle
    let mut lab = Lab::of(&out_a0(11));
    lab.record.io[TIMERENABLE] = 1;
    lab.cycle();
    assert_eq!(
        (lab.record.io[IRQ0STATUS], lab.record.io[TIMERCURRENT]),
        (0, 0)
    );
    // above timermax it counts on and wraps
    let mut lab = Lab::empty();
    lab.record.io[TIMERENABLE] = 1;
    lab.record.io[TIMERMAX] = 3;
    lab.record.io[TIMERCURRENT] = 0xFFFFFFFF;
    lab.cycle();
    assert_eq!(
        (lab.record.io[IRQ0STATUS], lab.record.io[TIMERCURRENT]),
        (0, 0)
    );
    lab.run(3);
    assert_eq!(
        (lab.record.io[IRQ0STATUS], lab.record.io[TIMERCURRENT]),
        (0, 3)
    );
    lab.cycle();
    assert_eq!(
        (lab.record.io[IRQ0STATUS], lab.record.io[TIMERCURRENT]),
        (1, 0)
    );
}

#[test]
fn m10_out_of_0_to_a_status_bit() {
    // timer: the device is later
    let mut lab = Lab::of(&out_a0(3));
    lab.record.io[TIMERENABLE] = 1;
    lab.record.io[IRQ0STATUS] = 1;
    lab.cycle();
    assert_eq!(lab.record.io[IRQ0STATUS], 1);
    // disk: the device is later
    let mut lab = Lab::of(&out_a0(4));
    lab.record.io[DISKSTATUS] = 1;
    lab.record.io[DISKCMD] = 1;
    lab.record.left = 1;
    lab.cycle();
    assert_eq!(lab.record.io[IRQ1STATUS], 1);
    // irq2: set in step 1, cleared in step 4
    let mut lab = Lab::of(&out_a0(5));
    lab.irq2 = vec![0];
    lab.cycle();
    assert_eq!(lab.record.io[IRQ2STATUS], 0);
    lab.cycle();
    assert_eq!(lab.record.io[IRQ2STATUS], 0);
}

#[test]
fn m11_status_bits_stay_and_can_be_set() {
    let mut lab = Lab::empty();
    lab.irq2 = vec![3, 9];
    lab.run(3);
    assert_eq!(lab.record.io[IRQ2STATUS], 0);
    lab.run(5);
    assert_eq!(
        (lab.record.io[IRQ2STATUS], lab.record.pc, lab.record.flag),
        (1, 8, 0)
    );
    // an out of 1 to a status bit asks for an interrupt like a device
    for number in [3, 4, 5] {
        let mut lab = Lab::of(&out_a0(number));
        lab.set_r(4, 1);
        lab.record.io[number - 3] = 1;
        lab.record.io[IRQHANDLER] = 100;
        lab.cycle();
        assert_eq!((lab.record.pc, lab.record.flag), (1, 0));
        lab.cycle();
        assert_eq!(
            (lab.record.pc, lab.record.flag, lab.record.io[IRQRETURN]),
            (101, 1, 1)
        );
    }
    // an enable of one and a status of another are not both 1 of the same
    let mut lab = Lab::empty();
    lab.record.io[IRQ0ENABLE] = 1;
    lab.record.io[IRQ1STATUS] = 1;
    lab.record.io[IRQ2STATUS] = 1;
    lab.record.io[IRQHANDLER] = 100;
    lab.cycle();
    assert_eq!((lab.record.pc, lab.record.flag), (1, 0));
}

#[test]
fn m12_enable_counts_from_the_next_cycle() {
    let mut lab = Lab::of(&format!("{}{}", out_a0(6), out_a0(2)));
    lab.image[60] = word("in $v0, $zero, $imm1, $zero, 7, 0");
    lab.image[61] = word("in $v0, $zero, $imm1, $zero, 5, 0");
    lab.irq2 = vec![0];
    lab.set_r(4, 60);
    lab.cycle();
    lab.set_r(4, 1);
    lab.cycle();
    assert_eq!((lab.record.pc, lab.record.flag), (2, 0));
    // the entry's own cycle sees the new irqreturn
    let (log, _) = lab.run(1);
    assert!(log.starts_with("T 03C "));
    assert_eq!(without_t(&log), "H 2 READ irqreturn 00000002");
    assert_eq!((lab.record.pc, lab.record.flag), (61, 1));
    assert_eq!(lab.cycle(), "H 3 READ irq2status 00000001");
    // and the irq2status of step 1
    let mut lab = Lab::of("in $v0, $zero, $imm1, $zero, 5, 0");
    lab.irq2 = vec![0];
    assert_eq!(lab.cycle(), "H 0 READ irq2status 00000001");
}

#[test]
fn m13_a_fault_or_halt_in_the_first_cycle_of_a_handler() {
    for (line, status) in [
        ("halt $zero, $zero, $zero, $zero, 0, 0", 1),
        ("lw $v0, $zero, $imm1, $zero, -1, 0", 3),
        ("in $v0, $zero, $imm1, $zero, 19, 0", 4),
    ] {
        let mut lab = Lab::empty();
        lab.image[60] = word(line);
        lab.irq2 = vec![0];
        lab.record.io[IRQ2ENABLE] = 1;
        lab.record.io[IRQHANDLER] = 60;
        lab.record.pc = 7;
        let (log, answer) = lab.run(5);
        assert!(log.starts_with("T 03C "));
        assert_eq!(answer.cycles, 1);
        let record = &lab.record;
        assert_eq!((record.status, record.pc, record.flag), (status, 60, 1));
        assert_eq!((record.io[IRQRETURN], record.io[IRQ2STATUS]), (7, 1));
        assert_eq!((record.age, record.io[CLKS]), (1, 1));
    }
    // steps 5 to 7 follow a fault
    let mut lab = Lab::of("in $v0, $zero, $imm1, $zero, 19, 0");
    lab.record.io[TIMERENABLE] = 1;
    lab.record.io[DISKSTATUS] = 1;
    lab.record.io[DISKCMD] = 1;
    lab.record.left = 1;
    lab.cycle();
    assert_eq!(lab.record.status, 4);
    assert_eq!(
        (lab.record.io[IRQ0STATUS], lab.record.io[IRQ1STATUS]),
        (1, 1)
    );
    assert_eq!(
        (
            lab.record.left,
            lab.record.io[DISKCMD],
            lab.record.io[DISKSTATUS]
        ),
        (0, 0, 0)
    );
    // a halt leaves the flag, up or down
    let mut lab = Lab::of("halt $zero, $zero, $zero, $zero, 0, 0");
    lab.record.flag = 1;
    lab.cycle();
    assert_eq!((lab.record.status, lab.record.flag), (1, 1));
}

#[test]
fn m14_reti() {
    // with the flag down
    let mut lab = Lab::of("reti $zero, $zero, $zero, $zero, 0, 0");
    lab.record.io[IRQRETURN] = 99;
    lab.cycle();
    assert_eq!((lab.record.pc, lab.record.flag), (99, 0));
    // in the entry's own cycle: back at once, in again with the next cycle
    let mut lab = Lab::empty();
    lab.image[60] = word("reti $zero, $zero, $zero, $zero, 0, 0");
    lab.record.io[IRQ0ENABLE] = 1;
    lab.record.io[IRQ0STATUS] = 1;
    lab.record.io[IRQHANDLER] = 60;
    lab.record.pc = 7;
    for _ in 0..3 {
        let (log, _) = lab.run(1);
        assert!(log.starts_with("T 03C 120000000000 "));
        assert_eq!(
            (lab.record.pc, lab.record.flag, lab.record.io[IRQRETURN]),
            (7, 0, 7)
        );
    }
    // not nested: with the flag up nothing is entered
    lab.record.flag = 1;
    let (log, _) = lab.run(1);
    assert!(log.starts_with("T 007 "));
    assert_eq!((lab.record.pc, lab.record.flag), (8, 1));
}

#[test]
fn m15_a_is_all_32_bits() {
    // 0xFFFFFFFF + 1 is address 0
    let mut lab = Lab::of("lw $v0, $a0, $imm1, $zero, 1, 0\n.word 0 55");
    lab.set_r(4, 0xFFFFFFFF);
    lab.cycle();
    assert_eq!((lab.record.status, lab.r(3)), (0, 55));
    for a in [18, 19, 23, 24, 31, 32, 4096, 0x80000009, 0xFFFFFFFF] {
        for line in [
            "in $v0, $a0, $zero, $zero, 0, 0",
            "in $zero, $a0, $zero, $zero, 0, 0",
            "out $zero, $a0, $zero, $zero, 0, 0",
        ] {
            let mut lab = Lab::of(line);
            lab.set_r(4, a);
            lab.set_r(3, 5);
            assert_eq!(lab.cycle(), "");
            assert_eq!((lab.record.status, lab.record.pc, lab.r(3)), (4, 0, 5));
        }
    }
    for a in [4096, 0x1000_0000, 0xFFFFFFFF] {
        for line in [
            "lw $v0, $a0, $zero, $zero, 0, 0",
            "lw $imm2, $a0, $zero, $zero, 0, 0",
            "sw $v0, $a0, $zero, $zero, 0, 0",
        ] {
            let mut lab = Lab::of(line);
            lab.set_r(4, a);
            lab.set_r(3, 5);
            assert_eq!(lab.cycle(), "");
            assert_eq!((lab.record.status, lab.record.pc, lab.r(3)), (3, 0, 5));
            assert!(lab.data.iter().all(|word| *word == 0));
        }
    }
    // in into R0 to R2 still logs H
    for rd in ["$zero", "$imm1", "$imm2"] {
        let mut lab = Lab::of(&format!("in {rd}, $zero, $imm1, $zero, 8, 0"));
        let before = lab.record.r;
        assert_eq!(lab.cycle(), "H 0 READ clks 00000000");
        assert_eq!(lab.record.r, before);
    }
}

#[test]
fn m16_status_2_logs_t() {
    let mut lab = Lab::empty();
    lab.image[0] = 0x163456FFE001;
    let (log, answer) = lab.run(3);
    assert!(log.starts_with("T 000 163456FFE001 00000000 FFFFFFFE 00000001 00000000 "));
    assert_eq!(log.lines().count(), 1);
    assert_eq!(
        (answer.record.status, answer.record.pc, answer.record.r),
        (2, 0, [0; 13])
    );
    let mut lab = Lab::empty();
    lab.image[0] = 0xFF0000000000;
    lab.cycle();
    assert_eq!(lab.record.status, 2);
}

#[test]
fn m17_monitorcmd() {
    for (value, writes) in [
        (1, true),
        (3, true),
        (0xFFFFFFFF, true),
        (0, false),
        (2, false),
    ] {
        let mut lab = Lab::of(&format!("{}in $v0, $zero, $imm1, $zero, 22, 0", out_a0(22)));
        lab.set_r(3, 9);
        lab.set_r(4, value);
        lab.record.io[MONITORADDR] = 65535;
        lab.record.io[MONITORDATA] = 200;
        assert_eq!(lab.cycle(), format!("H 0 WRITE monitorcmd {value:08X}"));
        assert_eq!(lab.frame[65535], if writes { 200 } else { 0 });
        assert!(lab.frame[..65535].iter().all(|pixel| *pixel == 0));
        assert_eq!(lab.cycle(), "H 1 READ monitorcmd 00000000");
        assert_eq!(lab.r(3), 0);
    }
}

#[test]
fn m18_l_and_d() {
    let mut lab = Lab::of(&format!(
        "{}{}{}{}",
        out_a0(9),
        out_a0(9),
        out_a0(10),
        out_a0(10)
    ));
    lab.record.io[LEDS] = 6;
    lab.set_r(4, 6);
    assert_eq!(lab.cycle(), "H 0 WRITE leds 00000006");
    lab.set_r(4, 7);
    assert_eq!(lab.cycle(), "H 1 WRITE leds 00000007|L 1 00000007");
    assert_eq!(lab.cycle(), "H 2 WRITE display7seg 00000007|D 2 00000007");
    assert_eq!(lab.cycle(), "H 3 WRITE display7seg 00000007");
}

#[test]
fn m19_fields_an_op_does_not_name() {
    // shifts: rm
    let mut lab = Lab::of("sll $v0, $imm1, $imm2, $a0, 3, 2");
    lab.set_r(4, 0xFFFFFFFF);
    lab.cycle();
    assert_eq!(lab.r(3), 12);
    // branches: rd is neither read nor written
    let mut lab = Lab::of("bne $v0, $a0, $zero, $imm1, 9, 0");
    lab.set_r(3, 4);
    lab.set_r(4, 1);
    lab.cycle();
    assert_eq!((lab.record.pc, lab.r(3)), (9, 4));
    // halt, reti: all
    let mut lab = Lab::of("halt $v0, $a0, $a1, $a2, -1, -1");
    lab.set_r(3, 4);
    lab.cycle();
    assert_eq!((lab.record.status, lab.r(3)), (1, 4));
    let mut lab = Lab::of("reti $v0, $a0, $a1, $a2, -1, -1");
    lab.set_r(3, 4);
    lab.record.io[IRQRETURN] = 5;
    lab.cycle();
    assert_eq!((lab.record.pc, lab.r(3)), (5, 4));
    // jal with rd = rm jumps to the old value
    let mut lab = Lab::of("jal $ra, $a0, $a1, $ra, 0, 0");
    lab.set_r(15, 0xABCDE321);
    lab.cycle();
    assert_eq!((lab.record.pc, lab.r(15)), (0x321, 1));
    // jal into $zero
    let mut lab = Lab::of("jal $zero, $a0, $a1, $imm2, 0, 44");
    lab.cycle();
    assert_eq!((lab.record.pc, lab.record.r), (44, [0; 13]));
    // in's rm, out's rd
    let mut lab = Lab::of("in $v0, $zero, $imm1, $a0, 9, 0");
    lab.set_r(4, 100);
    lab.record.io[LEDS] = 3;
    lab.cycle();
    assert_eq!(lab.r(3), 3);
    let mut lab = Lab::of("out $v0, $zero, $imm1, $a0, 9, 0");
    lab.set_r(3, 100);
    lab.set_r(4, 3);
    lab.cycle();
    assert_eq!((lab.record.io[LEDS], lab.r(3)), (3, 100));
}

#[test]
fn m20_zero_extension_and_low_48_bits() {
    let mut lab = Lab::of("in $v0, $zero, $imm1, $zero, 7, 0");
    lab.record.io[IRQRETURN] = 0xFFF;
    lab.image[0] |= 0xFFFF_0000_0000_0000;
    let (log, _) = lab.run(1);
    assert!(log.starts_with("T 000 133010007000 "));
    assert_eq!(without_t(&log), "H 0 READ irqreturn 00000FFF");
    assert_eq!(lab.r(3), 0xFFF);
}

#[test]
fn every_io_name_in_h() {
    let names = [
        (0, "irq0enable"),
        (1, "irq1enable"),
        (2, "irq2enable"),
        (3, "irq0status"),
        (4, "irq1status"),
        (5, "irq2status"),
        (6, "irqhandler"),
        (7, "irqreturn"),
        (8, "clks"),
        (9, "leds"),
        (10, "display7seg"),
        (11, "timerenable"),
        (12, "timercurrent"),
        (13, "timermax"),
        (14, "diskcmd"),
        (15, "disksector"),
        (16, "diskbuffer"),
        (17, "diskstatus"),
        (20, "monitoraddr"),
        (21, "monitordata"),
        (22, "monitorcmd"),
    ];
    for (number, name) in names {
        let mut lab = Lab::of(&format!("in $v0, $zero, $imm1, $zero, {number}, 0"));
        assert_eq!(lab.cycle(), format!("H 0 READ {name} 00000000"));
    }
}

#[test]
fn writes_to_the_first_three_registers_change_nothing() {
    for rd in ["$zero", "$imm1", "$imm2"] {
        for op in ["add", "sub", "mac", "or", "xor", "sll", "lw"] {
            let mut lab = Lab::of(&format!("{op} {rd}, $imm1, $imm2, $imm1, 3, 2\n.word 5 9"));
            lab.cycle();
            assert_eq!(
                (lab.record.status, lab.record.pc, lab.record.r),
                (0, 1, [0; 13])
            );
        }
    }
}
