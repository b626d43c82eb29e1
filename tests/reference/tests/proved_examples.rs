//! Document 01, "Proved examples" and "Mistakes to exclude", each by its own words; the saved record
//! by document 02's.

mod common;
use common::*;
use reference::names::*;
use reference::record::{read, save, Record};
use reference::simlog::{line_e, milliseconds, simlog};

#[test]
fn sub_encodes_and_gives_fffffffc() {
    // "sub with R8, R1, R2, R2 and 2, 3 encodes as 018122002003 and gives 0xFFFFFFFC"
    let mut lab = Lab::of("sub $t1, $imm1, $imm2, $imm2, 2, 3");
    assert_eq!(lab.image[0], 0x018122002003);
    lab.cycle();
    assert_eq!(lab.r(8), 0xFFFFFFFC);
}

#[test]
fn immediates_are_sign_extended() {
    // "immediate 0x7FF stays, 0xFFF gives 0xFFFFFFFF"
    let mut lab = Lab::of("add $v0, $imm1, $zero, $zero, 0x7FF, 0xFFF");
    let (log, _) = lab.run(1);
    assert!(log.starts_with("T 000 0031007FFFFF 00000000 000007FF FFFFFFFF "));
    assert_eq!(lab.r(3), 0x7FF);
    let mut lab = Lab::of("add $v0, $imm1, $zero, $zero, 0xFFF, 0x7FF");
    lab.cycle();
    assert_eq!(lab.r(3), 0xFFFFFFFF);
}

#[test]
fn sra_by_31_and_by_32() {
    // "sra of 0x80000000 by 31 gives 0xFFFFFFFF, by 32 no change"
    let mut lab = Lab::of("sra $v0, $a0, $imm1, $zero, 31, 0\nsra $v0, $a0, $imm1, $zero, 32, 0");
    lab.set_r(4, 0x80000000);
    lab.cycle();
    assert_eq!(lab.r(3), 0xFFFFFFFF);
    lab.cycle();
    assert_eq!(lab.r(3), 0x80000000);
}

#[test]
fn blt_compares_signed() {
    // "blt of 0xFFFFFFFF and 0 jumps"
    let mut lab = Lab::of("blt $zero, $a0, $zero, $imm1, 77, 0");
    lab.set_r(4, 0xFFFFFFFF);
    lab.cycle();
    assert_eq!(lab.record.pc, 77);
}

#[test]
fn mac_wraps() {
    // "mac 0x10000×0x10000+1 gives 1"
    let mut lab = Lab::of("mac $v0, $a0, $a0, $imm1, 1, 0");
    lab.set_r(4, 0x10000);
    lab.cycle();
    assert_eq!(lab.r(3), 1);
}

#[test]
fn jal_at_4095_links_0() {
    let mut lab = Lab::empty();
    lab.image[4095] = word("jal $ra, $zero, $zero, $imm1, 5, 0");
    lab.record.pc = 4095;
    lab.set_r(15, 9);
    lab.cycle();
    assert_eq!(lab.r(15), 0);
    assert_eq!(lab.record.pc, 5);
}

#[test]
fn timer_rises_at_the_end_of_cycle_7() {
    // "timermax 2, timercurrent 0, enabled in cycle 5: irq0status rises at the end of 7"
    let mut lab = Lab::empty();
    lab.image[0] = word("out $zero, $imm1, $zero, $imm2, 13, 2");
    lab.image[5] = word("out $zero, $imm1, $zero, $imm2, 11, 1");
    lab.run(5);
    assert_eq!(lab.record.io[TIMERCURRENT], 0);
    lab.cycle(); // cycle 5
    assert_eq!(
        (lab.record.io[IRQ0STATUS], lab.record.io[TIMERCURRENT]),
        (0, 1)
    );
    lab.cycle(); // cycle 6
    assert_eq!(
        (lab.record.io[IRQ0STATUS], lab.record.io[TIMERCURRENT]),
        (0, 2)
    );
    lab.cycle(); // cycle 7
    assert_eq!(
        (lab.record.io[IRQ0STATUS], lab.record.io[TIMERCURRENT]),
        (1, 0)
    );
    assert_eq!(lab.record.age, 8);
}

#[test]
fn disk_command_in_cycle_10() {
    // "disk command in cycle 10: diskstatus reads 1 in 1034, 0 in 1035"
    let mut lab = Lab::empty();
    lab.image[10] = word("out $zero, $imm1, $zero, $imm2, 14, 1");
    lab.image[1034] = word("in $v0, $zero, $imm1, $zero, 17, 0");
    lab.image[1035] = word("in $a0, $zero, $imm1, $zero, 17, 0");
    let (log, _) = lab.run(1034);
    assert_eq!(without_t(&log), "H 10 WRITE diskcmd 00000001");
    assert_eq!(lab.record.left, 1);
    assert_eq!(lab.cycle(), "H 1034 READ diskstatus 00000001");
    assert_eq!(
        (
            lab.record.left,
            lab.record.io[IRQ1STATUS],
            lab.record.io[DISKCMD]
        ),
        (0, 1, 0)
    );
    assert_eq!(lab.cycle(), "H 1035 READ diskstatus 00000000");
    assert_eq!((lab.r(3), lab.r(4)), (1, 0));
}

#[test]
fn diskbuffer_3968_and_3969() {
    // "diskbuffer 3968 accepted, 3969 status 5"
    let mut lab = Lab::of("out $zero, $imm1, $zero, $imm2, 14, 1");
    lab.disk[0] = 11;
    lab.disk[127] = 22;
    lab.record.io[DISKBUFFER] = 3968;
    assert_eq!(lab.cycle(), "H 0 WRITE diskcmd 00000001");
    assert_eq!(
        (lab.record.status, lab.record.left, lab.record.pc),
        (0, 1024, 1)
    );
    lab.run(1023);
    assert_eq!((lab.data[3968], lab.data[4095]), (11, 0));
    lab.cycle();
    assert_eq!((lab.data[3968], lab.data[4095]), (11, 22));

    let mut lab = Lab::of("out $zero, $imm1, $zero, $imm2, 14, 1");
    lab.disk[0] = 11;
    lab.record.io[DISKBUFFER] = 3969;
    assert_eq!(lab.cycle(), "H 0 WRITE diskcmd 00000001");
    assert_eq!(
        (lab.record.status, lab.record.left, lab.record.pc),
        (5, 0, 0)
    );
    assert_eq!((lab.record.io[DISKCMD], lab.record.io[DISKSTATUS]), (0, 0));
    assert!(lab.data.iter().all(|word| *word == 0));
    assert_eq!(lab.record.age, 1);
}

#[test]
fn address_4095_and_4096() {
    // "address 4095 read, 4096 status 3"
    let mut lab = Lab::of("lw $v0, $a0, $zero, $zero, 0, 0\n.word 4095 123");
    lab.set_r(4, 4095);
    lab.cycle();
    assert_eq!((lab.record.status, lab.r(3), lab.record.pc), (0, 123, 1));
    let mut lab = Lab::of("lw $v0, $a0, $zero, $zero, 0, 0\n.word 4095 123");
    lab.set_r(4, 4096);
    lab.cycle();
    assert_eq!((lab.record.status, lab.r(3), lab.record.pc), (3, 0, 0));
    assert_eq!(lab.record.age, 1);
}

#[test]
fn sixty_four_cycles_are_63_ms() {
    assert_eq!(milliseconds(64), 63);
    let mut record = Record::fresh();
    record.age = 64;
    assert_eq!(line_e(&record), "E 0 64 63\n");
}

/// The example of document 01, letter by letter.
const SIMLOG_EXAMPLE: &str = "\
T 000 140102009005 00000000 00000009 00000005 00000000 00000000 00000000 00000000 00000000 00000000 00000000 00000000 00000000 00000000 00000000 00000000 00000000
H 0 WRITE leds 00000005
L 0 00000005
T 001 150000000000 00000000 00000000 00000000 00000000 00000000 00000000 00000000 00000000 00000000 00000000 00000000 00000000 00000000 00000000 00000000 00000000
E 1 2 2
";

#[test]
fn simlog_example() {
    let printed = simlog(b"140102009005\n150000000000\n");
    assert_eq!(String::from_utf8(printed).unwrap(), SIMLOG_EXAMPLE);
    // "The last LF may be missing."
    let printed = simlog(b"140102009005\n150000000000");
    assert_eq!(String::from_utf8(printed).unwrap(), SIMLOG_EXAMPLE);
}

#[test]
fn the_run_above_saves_as() {
    // "the run above saves as 01 20 01 00 00 00 00 02 and on"; "The proved saved example now begins
    // 02, its next seven bytes as before": leds 5 and clks 2 stand in the rest. By hand: bits before
    // clks 8+3+1+12+40+11+7+12+13*32+6+12+12 = 540, so clks ends before bit 572 and leds before bit
    // 604 (bits from 0). clks = 2 sets bit 570, in byte 71 the third; leds = 5 sets bits 601 and 603,
    // in byte 75 the second and the fourth.
    let mut lab = Lab::empty();
    lab.image[0] = 0x140102009005;
    lab.image[1] = 0x150000000000;
    lab.run(100);
    let mut bytes = [0xEE; 94];
    save(&lab.record, &mut bytes).unwrap();
    let mut expected = [0u8; 94];
    expected[..8].copy_from_slice(&[0x02, 0x20, 0x01, 0, 0, 0, 0, 0x02]);
    expected[71] = 0x20;
    expected[75] = 0x50;
    assert_eq!(bytes, expected);
    assert_eq!(read(&bytes).record, lab.record);
}

#[test]
fn mistake_clearing_the_status_bits_on_entry() {
    let mut lab = Lab::empty();
    lab.record.io[IRQ0ENABLE] = 1;
    lab.record.io[IRQ0STATUS] = 1;
    lab.record.io[IRQHANDLER] = 30;
    lab.record.pc = 7;
    lab.cycle();
    assert_eq!(lab.record.io[IRQ0STATUS], 1);
    assert_eq!(
        (lab.record.pc, lab.record.io[IRQRETURN], lab.record.flag),
        (31, 7, 1)
    );
}

#[test]
fn mistake_an_l_line_for_an_unchanged_out() {
    let mut lab = Lab::of(
        "out $zero, $imm1, $zero, $imm2, 9, 3\n\
         out $zero, $imm1, $zero, $imm2, 9, 3\n\
         out $zero, $imm1, $zero, $imm2, 10, 0\n",
    );
    assert_eq!(lab.cycle(), "H 0 WRITE leds 00000003|L 0 00000003");
    assert_eq!(lab.cycle(), "H 1 WRITE leds 00000003");
    assert_eq!(lab.cycle(), "H 2 WRITE display7seg 00000000");
}

#[test]
fn mistake_branching_on_rd() {
    // rd differs from rs and rt, which are equal: beq jumps, to R[rm], whatever rd is.
    let mut lab = Lab::of("beq $v0, $a0, $a1, $a2, 0, 0");
    lab.set_r(3, 99);
    lab.set_r(4, 5);
    lab.set_r(5, 5);
    lab.set_r(6, 0xFFFFF123);
    lab.cycle();
    assert_eq!(lab.record.pc, 0x123);
}

#[test]
fn mistake_a_halt_or_fault_whose_cycle_is_not_counted() {
    for (word, status) in [
        (0x150000000000, 1), // halt
        (0x160000000000, 2), // opcode 22
        (0x103010FFF000, 3), // lw $v0, $zero, $imm1, $zero, -1, 0: address 0xFFFFFFFF
        (0x133010012000, 4), // in $v0, $zero, $imm1, $zero, 18, 0
    ] {
        let mut lab = Lab::empty();
        lab.image[0] = word;
        let (_, answer) = lab.run(10);
        assert_eq!(
            (answer.record.status, answer.cycles, answer.reason),
            (status, 1, 1)
        );
        assert_eq!(
            (answer.record.age, answer.record.io[CLKS], answer.record.pc),
            (1, 1, 0)
        );
    }
}

#[test]
fn every_op_once() {
    // R4 = 0xF0F0F0F0, R5 = 0x0FF00FF3, R6 = 0x12345678; each op with rd = R3.
    let (a, b, c) = (0xF0F0F0F0u32, 0x0FF00FF3u32, 0x12345678u32);
    let result = |op: &str| {
        let mut lab = Lab::of(&format!("{op} $v0, $a0, $a1, $a2, 0, 0"));
        lab.set_r(4, a);
        lab.set_r(5, b);
        lab.set_r(6, c);
        lab.cycle();
        lab.r(3)
    };
    // add: F0F0F0F0 + 0FF00FF3 = 1_00E100E3, cut 00E100E3; + 12345678 = 1315575B
    assert_eq!(result("add"), 0x1315575B);
    // sub: F0F0F0F0 - 0FF00FF3 = E100E0FD; - 12345678 = CECC8A85
    assert_eq!(result("sub"), 0xCECC8A85);
    // and: F0F0F0F0 & 0FF00FF3 = 00F000F0; & 12345678 = 00300070
    assert_eq!(result("and"), 0x00300070);
    // or: FFF0FFF3 | 12345678 = FFF4FFFB
    assert_eq!(result("or"), 0xFFF4FFFB);
    // xor: FF00FF03 ^ 12345678 = ED34A97B
    assert_eq!(result("xor"), 0xED34A97B);
    // shifts by 0xF3, low five bits 19: F0F0F0F0 << 19 has the low 13 bits 1000011110000 at the
    // top: 1 0000 1111 0000 then 19 zeros = 87800000
    assert_eq!(result("sll"), 0x87800000);
    // F0F0F0F0 >> 19 = the top 13 bits 1111000011110 = 1E1E
    assert_eq!(result("srl"), 0x00001E1E);
    assert_eq!(result("sra"), 0xFFFFFE1E);
}

#[test]
fn every_branch() {
    // jumps for (rs < rt, rs == rt, rs > rt)
    for (op, below, equal, above) in [
        ("beq", false, true, false),
        ("bne", true, false, true),
        ("blt", true, false, false),
        ("bgt", false, false, true),
        ("ble", true, true, false),
        ("bge", false, true, true),
    ] {
        for (rs, rt, jumps) in [
            (-5i32, 3i32, below),
            (i32::MIN, i32::MAX, below),
            (-1, 0, below),
            (7, 7, equal),
            (-7, -7, equal),
            (3, -5, above),
            (i32::MAX, i32::MIN, above),
            (0, -1, above),
        ] {
            let mut lab = Lab::of(&format!("{op} $zero, $a0, $a1, $imm1, 100, 0"));
            lab.set_r(4, rs as u32);
            lab.set_r(5, rt as u32);
            assert_eq!(lab.cycle(), "");
            assert_eq!(lab.record.pc, if jumps { 100 } else { 1 }, "{op} {rs} {rt}");
        }
    }
}

#[test]
fn lw_and_sw_add_rm() {
    // "lw: R[rd] = M[a] + R[rm]. sw: M[a] = R[rm] + R[rd]."
    let mut lab = Lab::of(
        "lw $v0, $a0, $imm1, $imm2, 3, -1\n\
         sw $v0, $a0, $imm1, $imm2, 4, 2\n\
         .word 103 0\n",
    );
    lab.set_r(4, 100);
    lab.cycle();
    assert_eq!(lab.r(3), 0xFFFFFFFF);
    lab.cycle();
    assert_eq!(lab.data[104], 1);
}

#[test]
fn pc_wraps() {
    // "PC becomes (PC+1) mod 4096"
    let mut lab = Lab::empty();
    lab.record.pc = 4095;
    lab.cycle();
    assert_eq!(lab.record.pc, 0);
}

#[test]
fn the_longest_cycle_logs_231_bytes() {
    // "At most 231 bytes are logged per cycle."
    let mut lab = Lab::of("out $zero, $imm1, $zero, $imm2, 10, 1");
    lab.record.age = (1 << 40) - 2;
    let (log, _) = lab.run(1);
    assert_eq!(log.len(), 231);
}
