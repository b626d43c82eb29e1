//! The open points A1 to A22, B1 to B5 and C1 to C5, and the assembler's questions.

mod common;
use common::*;
use reference::assembler::assemble;

/// A good instruction's operands.
const OPERANDS: &str = "$v0, $a0, $a1, $a2, 1, 2";

fn number(source: &str) -> u32 {
    match assembled(source.as_bytes()) {
        Ok(_) => 0,
        Err((number, line)) => {
            assert_eq!(line, 1, "{source}");
            number
        }
    }
}

#[track_caller]
fn good(source: &str) -> (Vec<u64>, Vec<u32>) {
    match assembled(source.as_bytes()) {
        Ok(memories) => memories,
        Err(refusal) => panic!("{source}: {refusal:?}"),
    }
}

#[test]
fn a1_t3_is_unknown() {
    assert_eq!(
        number("add $t3, $t2, $t1, $t0, 0, 0      # $t3 = $t2 + $t1 + $t0"),
        4
    );
}

#[test]
fn the_other_lines_of_003() {
    let (image, _) = good(
        "add $t1, $t1, $imm1, $zero, 2, 0  # $t1 = $t1 + 2\n\
         add $t1, $imm1, $imm1, $imm1, 2, 0 # $t1 = 2 + 2 + 2 = 6\n\
         sub $t1, $imm1, $imm2, $imm2, 2, 3 # $t1 = 2 - 3 - 3 = -4\n",
    );
    assert_eq!(
        image[..4],
        [0x008810002000, 0x008111002000, 0x018122002003, 0]
    );
}

#[test]
fn the_labels_of_003() {
    let (image, _) = good(
        "bne $zero, $t0, $t1, $imm1, L1, 0\n\
         add $t2, $t2, $imm1, $zero, 1, 0\n\
         beq $zero, $zero, $zero, $imm1, L2, 0\n\
         L1:\n\
         sub $t2, $t2, $imm1, $zero, 1, 0\n\
         L2:\n\
         add $t1, $zero, $imm1, $zero, L3, 0\n\
         beq $zero, $zero, $zero, $t1, 0, 0\n\
         L3:\n\
         jal $ra, $zero, $zero, $imm1, L4, 0\n\
         halt $zero, $zero, $zero, $zero, 0, 0\n\
         L4:\n\
         beq $zero, $zero, $zero, $ra, 0, 0\n",
    );
    assert_eq!(
        image[..9],
        [
            0x0A0781003000,
            0x009910001000,
            0x090001004000,
            0x019910001000,
            0x008010006000,
            0x090008000000,
            0x0FF001008000,
            0x150000000000,
            0x09000F000000,
        ]
    );
    assert!(image[9..].iter().all(|word| *word == 0));
}

#[test]
fn a2_comment_of_word_is_optional() {
    assert_eq!(good(".word 1 2").1[1], 2);
    assert_eq!(good(".word 1 2 # two").1[1], 2);
}

#[test]
fn a3_label_before_word_and_two_labels() {
    assert_eq!(number("L: .word 1 2"), 3);
    assert_eq!(number("L: M: add $v0, $a0, $a1, $a2, 1, 2"), 3);
    assert_eq!(number("L: M:"), 3);
    assert_eq!(number("L:M:"), 3);
}

#[test]
fn a4_label_is_one_token() {
    assert_eq!(number("L :"), 3);
    assert_eq!(number("L::"), 3);
    assert_eq!(number(":"), 3);
    assert_eq!(number("1L:"), 3);
    assert_eq!(good(&format!("L:add {OPERANDS}")).0[0], 0x003456001002);
    assert_eq!(good(&format!("  L:\tadd {OPERANDS}")).0[0], 0x003456001002);
    good("L:");
    good("L:#c");
    good(" L: # c");
}

#[test]
fn a5_blanks() {
    assert_eq!(good(&format!("add\t{OPERANDS}")).0[0], 0x003456001002);
    assert_eq!(good(&format!("add\r\r{OPERANDS}")).0[0], 0x003456001002);
    assert_eq!(good("add $v0,$a0,$a1,$a2,1,2#c").0[0], 0x003456001002);
    assert_eq!(
        good("  add  $v0 ,\t$a0\r, $a1 ,$a2 , 1 , 2  ").0[0],
        0x003456001002
    );
    assert_eq!(number("add$v0, $a0, $a1, $a2, 1, 2"), 3);
    assert_eq!(number("add#c"), 3);
    assert_eq!(number(".word1 2"), 3);
    assert_eq!(number(".word 12"), 3);
    assert_eq!(number(".word 1,2"), 3);
    assert_eq!(number(".word 1 2 3"), 3);
    assert_eq!(number(".word"), 3);
    assert_eq!(number(". word 1 2"), 3);
    assert_eq!(good(".word 1 2#c").1[1], 2);
    assert_eq!(good("\t.word\t1\r2\t").1[1], 2);
    assert_eq!(number("add $v0, $a0, $a1, $a2, 1 2"), 3);
    assert_eq!(number("add $v0 $a0, $a1, $a2, 1, 2"), 3);
    assert_eq!(number("add $ v0, $a0, $a1, $a2, 1, 2"), 3);
    assert_eq!(number("a dd $v0, $a0, $a1, $a2, 1, 2"), 3);
}

#[test]
fn a6_bytes_of_a_line() {
    good("add\r$v0,\r$a0, $a1, $a2, 1, 2\r\n\r\n");
    for byte in [0u8, 1, 8, 11, 12, 14, 31, 127, 128, 0xC3, 0xEF, 255] {
        assert_eq!(assembled(&[b'\n', b'#', byte]), Err((2, 2)));
        assert_eq!(assembled(&[byte]), Err((2, 1)));
    }
    for byte in 33..=126u8 {
        assert!(assembled(&[b'#', byte]).is_ok());
    }
    // A byte order mark
    assert_eq!(assembled(b"\xEF\xBB\xBF# text\n"), Err((2, 1)));
    // CR counts among the 500 bytes.
    let line = format!("#{}\r\n", "x".repeat(498));
    good(&line);
    let line = format!("#{}\r\n", "x".repeat(499));
    assert_eq!(number(&line), 2);
}

#[test]
fn a7_hex_numbers() {
    assert_eq!(good(".word 0 0xaBcDeF01").1[0], 0xABCDEF01);
    assert_eq!(number(".word 0 0X1"), 3);
    assert_eq!(number(".word 0 0x"), 3);
    assert_eq!(number(".word 0 0x123456789"), 3);
    assert_eq!(number(".word 0 0x1G"), 3);
    assert_eq!(number(".word 0 1F"), 3);
}

#[test]
fn a8_decimal_numbers() {
    for wrong in ["-0x1", "+1", "--1", "- 1", "-", "1-", "1.0", "1e3", "0o7"] {
        assert_eq!(number(&format!(".word 0 {wrong}")), 3, "{wrong}");
        assert_eq!(
            number(&format!("add $v0, $a0, $a1, $a2, {wrong}, 2")),
            3,
            "{wrong}"
        );
    }
    assert_eq!(good(".word -0 5").1[0], 5);
    assert_eq!(good(".word 0 -2147483648").1[0], 0x80000000);
    assert_eq!(good(".word 0 -0000000001").1[0], 0xFFFFFFFF);
    assert_eq!(good(".word 0000000010 0000000017").1[10], 17);
    assert_eq!(good(".word 0x00000010 0x00000017").1[16], 23);
    assert_eq!(
        good("add $v0, $a0, $a1, $a2, -0, 0000000011").0[0],
        0x00345600000B
    );
}

#[test]
fn a9_longer_numbers_and_labels() {
    assert_eq!(number(".word 0 12345678901"), 3);
    assert_eq!(number(".word 0 00000000001"), 3);
    assert_eq!(number(".word 0 -00000000001"), 3);
    assert_eq!(number(".word 0 0x000000001"), 3);
    assert_eq!(number(".word 0 9999999999"), 5);
    let fifty = "a".repeat(50);
    let fifty_one = "a".repeat(51);
    good(&format!("{fifty}: add $v0, $a0, $a1, $a2, {fifty}, 2"));
    assert_eq!(number(&format!("{fifty_one}:")), 3);
    assert_eq!(number(&format!("add $v0, $a0, $a1, $a2, {fifty}, 2")), 7);
    assert_eq!(
        number(&format!("add $v0, $a0, $a1, $a2, {fifty_one}, 2")),
        3
    );
}

#[test]
fn a10_an_op_has_a_labels_form() {
    assert_eq!(number(&format!("foo {OPERANDS}")), 4);
    assert_eq!(number(&format!("{} {OPERANDS}", "a".repeat(50))), 4);
    assert_eq!(number(&format!("{} {OPERANDS}", "a".repeat(51))), 3);
    assert_eq!(number(&format!("9add {OPERANDS}")), 3);
    assert_eq!(number(&format!("ADD {OPERANDS}")), 4);
    assert_eq!(number(&format!("add9 {OPERANDS}")), 4);
    assert_eq!(number("foo"), 3);
    assert_eq!(number("add"), 3);
}

#[test]
fn a11_a_register_has_any_length() {
    let line = |register: &str| format!("add {register}, $a0, $a1, $a2, 1, 2");
    assert_eq!(number(&line(&format!("${}", "a".repeat(60)))), 4);
    assert_eq!(number(&line("$")), 3);
    assert_eq!(number(&line("v0")), 3);
    assert_eq!(number(&line("$$v0")), 3);
    assert_eq!(number(&line("$v0$")), 3);
    for unknown in ["$0", "$15", "$T0", "$ZERO", "$s3", "$v1", "$a3", "$zero0"] {
        assert_eq!(number(&line(unknown)), 4, "{unknown}");
    }
    // A register in place of an immediate, a number in place of a register
    assert_eq!(number("add $v0, $a0, $a1, $a2, $v0, 2"), 3);
    assert_eq!(number("add $v0, $a0, $a1, 5, 1, 2"), 3);
}

#[test]
fn a12_no_label_in_word_no_colon_in_an_immediate() {
    assert_eq!(number(".word 0 L"), 3);
    assert_eq!(number(".word L 0"), 3);
    assert_eq!(number("L: add $v0, $a0, $a1, $a2, L:, 2"), 3);
}

#[test]
fn a13_label_names() {
    for name in [
        "add", "halt", "v0", "zero", "A0", "x10", "word", "imm1", "a",
    ] {
        let (image, _) = good(&format!(
            "\nadd {OPERANDS}\n{name}: add $v0, $a0, $a1, $a2, {name}, 0"
        ));
        assert_eq!(image[1], 0x003456001000, "{name}");
    }
    // `add :` is no label
    assert_eq!(number("add :"), 3);
}

#[test]
fn a14_six_operands() {
    assert_eq!(number("halt"), 3);
    assert_eq!(number("halt $zero, $zero, $zero, $zero, 0"), 3);
    assert_eq!(number("halt, $zero, $zero, $zero, $zero, 0, 0"), 3);
    assert_eq!(number("halt ,$zero, $zero, $zero, $zero, 0, 0"), 3);
    assert_eq!(number("halt $zero, $zero, $zero, $zero, 0, 0,"), 3);
    assert_eq!(number("halt $zero, $zero, $zero, $zero, 0, 0, 0"), 3);
    assert_eq!(number("halt $zero, $zero,, $zero, $zero, 0, 0"), 3);
    assert_eq!(
        good("halt $zero, $zero, $zero, $zero, 0, 0").0[0],
        0x150000000000
    );
}

#[test]
fn a15_names_are_case_sensitive() {
    assert_eq!(number(".WORD 1 2"), 3);
    assert_eq!(number(".Word 1 2"), 3);
    let (image, _) = good("L:\nadd $v0, $a0, $a1, $a2, L, l\nl:");
    assert_eq!(image[0], 0x003456000001);
}

#[test]
fn a16_ranges() {
    let line = |immediate: &str| format!("add $v0, $a0, $a1, $a2, {immediate}, 0");
    assert_eq!(good(&line("-2048")).0[0], 0x003456800000);
    assert_eq!(good(&line("2047")).0[0], 0x0034567FF000);
    assert_eq!(good(&line("-1")).0[0], 0x003456FFF000);
    assert_eq!(good(&line("0xfff")).0[0], 0x003456FFF000);
    for wrong in [
        "-2049",
        "4096",
        "0xFFFFF800",
        "0x1000",
        "9999999999",
        "-9999999999",
    ] {
        assert_eq!(number(&line(wrong)), 5, "{wrong}");
        assert_eq!(
            number(&format!("add $v0, $a0, $a1, $a2, 0, {wrong}")),
            5,
            "{wrong}"
        );
    }
    // The whole line is asked 4 before 5.
    assert_eq!(number("add $v9, $a0, $a1, $a2, 4096, 0"), 4);
    assert_eq!(number("foo $v0, $a0, $a1, $a2, 4096, 0"), 4);
    // .word: address 0 to 4095, data -2^31 to 2^32-1
    assert_eq!(good(".word 4095 4294967295").1[4095], 0xFFFFFFFF);
    for wrong in [
        "4096 0",
        "-1 0",
        "0x1000 0",
        "0 4294967296",
        "0 -2147483649",
    ] {
        assert_eq!(number(&format!(".word {wrong}")), 5, "{wrong}");
    }
}

#[test]
fn a17_where_used_labels_are_defined() {
    let uses = "add $v0, $a0, $a1, $a2, L, 0\n";
    // the same line, a later one
    good(&format!("L: {uses}"));
    good(&format!("{uses}L:"));
    // nowhere
    assert_eq!(assembled(uses.as_bytes()), Err((7, 1)));
    // on a line that fails 4, 5, 6 or 7: that later line is the first bad one
    assert_eq!(
        assembled(format!("{uses}L: foo {OPERANDS}").as_bytes()),
        Err((4, 2))
    );
    assert_eq!(
        assembled(format!("{uses}L: add $v0, $a0, $a1, $a2, 4096, 0").as_bytes()),
        Err((5, 2))
    );
    assert_eq!(assembled(format!("{uses}L:\nL:").as_bytes()), Err((6, 3)));
    assert_eq!(
        assembled(format!("{uses}L: add $v0, $a0, $a1, $a2, M, 0").as_bytes()),
        Err((7, 2))
    );
    // on a line of wrong form, or with a bad byte even in its comment: the use is bad
    assert_eq!(assembled(format!("{uses}L: foo").as_bytes()), Err((7, 1)));
    assert_eq!(
        assembled(format!("{uses}L: # \u{7F}").as_bytes()),
        Err((7, 1))
    );
    assert_eq!(
        assembled(format!("{uses}L:{}", " ".repeat(499)).as_bytes()),
        Err((7, 1))
    );
    good(&format!("{uses}L:{}", " ".repeat(498)));
}

#[test]
fn a18_question_8_asks_the_label_defined_on_the_line() {
    // Line 1 uses label 1,025, which line 1,026 defines: the 8 is line 1,026's.
    let mut source = "add $v0, $a0, $a1, $a2, L1025, 0\n".to_string();
    for label in 1..=1025 {
        source += &format!("L{label}:\n");
    }
    assert_eq!(assembled(source.as_bytes()), Err((8, 1026)));
    // Line 1 uses a label at address 4096.
    let mut source = "add $v0, $a0, $a1, $a2, L, 0\n".to_string();
    for _ in 1..4096 {
        source += "add $v0, $a0, $a1, $a2, 1, 2\n";
    }
    source += "L:\n";
    assert_eq!(assembled(source.as_bytes()), Err((8, 4097)));
}

#[test]
fn a19_after_4096_instructions() {
    let full = "add $v0, $a0, $a1, $a2, 1, 2\n".repeat(4096);
    let (image, data) = good(&format!("{full}\n# c\n.word 7 8\n \t\n"));
    assert!(image.iter().all(|word| *word == 0x003456001002));
    assert_eq!(data[7], 8);
    assert_eq!(assembled(format!("{full}L:").as_bytes()), Err((8, 4097)));
    assert_eq!(
        assembled(format!("{full}add {OPERANDS}").as_bytes()),
        Err((8, 4097))
    );
    // 4 and 7 come before 8 on that line
    assert_eq!(
        assembled(format!("{full}foo {OPERANDS}").as_bytes()),
        Err((4, 4097))
    );
    assert_eq!(
        assembled(format!("{full}add $v0, $a0, $a1, $a2, L, 2").as_bytes()),
        Err((7, 4097))
    );
    // a label at 4095 is fine
    let nearly = "add $v0, $a0, $a1, $a2, 1, 2\n".repeat(4095);
    let (image, _) = good(&format!("{nearly}L: add $v0, $a0, $a1, $a2, L, 2"));
    assert_eq!(image[4095], 0x003456FFF002);

    // 1,024 labels, used or not
    let mut labels = String::new();
    for label in 1..=1024 {
        labels += &format!("L{label}:\n");
    }
    good(&labels);
    assert_eq!(assembled(format!("{labels}M:").as_bytes()), Err((8, 1025)));
    assert_eq!(assembled(format!("{labels}L7:").as_bytes()), Err((6, 1025)));
}

#[test]
fn a20_lines() {
    let (image, data) = good("");
    assert!(image.iter().all(|word| *word == 0) && data.iter().all(|word| *word == 0));
    good("\n");
    good("\n\n \n");
    good(&format!("{}\n", " ".repeat(500)));
    good(&" ".repeat(500));
    assert_eq!(number(&format!("{}\n", " ".repeat(501))), 2);
    assert_eq!(number(&" ".repeat(501)), 2);
    // 2 before 3; the first bad line decides
    assert_eq!(assembled(b"foo\x7F"), Err((2, 1)));
    assert_eq!(assembled(b"\n\nfoo\nfoo\x7F"), Err((3, 3)));
}

#[test]
fn a21_source_length() {
    // 262,144 bytes are 512 lines of 512 bytes: too long lines; so use short ones.
    let full = "#23456789012345\n".repeat(16_384);
    assert_eq!(full.len(), 262_144);
    good(&full);
    assert_eq!(assembled(format!("{full}\n").as_bytes()), Err((1, 0)));
    // before any line is read
    assert_eq!(assembled(format!("foo\n{full}").as_bytes()), Err((1, 0)));
}

#[test]
fn question_1_of_the_memories() {
    let mut image = vec![7; 4096];
    let mut data = vec![7; 4096];
    assert_eq!(
        pair(assemble(b"", &mut image[..4095], &mut data)),
        Err((1, 0))
    );
    assert_eq!(
        pair(assemble(b"", &mut image, &mut data[..4095])),
        Err((1, 0))
    );
    assert_eq!(
        pair(assemble(b"foo", &mut vec![7; 4097], &mut data)),
        Err((1, 0))
    );
    assert!(image.iter().all(|word| *word == 7) && data.iter().all(|word| *word == 7));
}

#[test]
fn a22_the_rest_is_zero() {
    let (image, data) = good(&format!("add {OPERANDS}\n.word 3 4\n.word 3 5"));
    assert_eq!(image[0], 0x003456001002);
    assert!(image[1..].iter().all(|word| *word == 0));
    // "the later .word of one address wins; the rest is zero"
    assert_eq!(data[3], 5);
    assert_eq!(data.iter().map(|word| *word as u64).sum::<u64>(), 5);
}

#[test]
fn b1_binary_digits() {
    let (ones, zeros) = ("1".repeat(32), "0".repeat(31));
    assert_eq!(good(".word 0b11 0b1010").1[3], 10);
    assert_eq!(good(&format!(".word 0 0b{ones}")).1[0], 0xFFFF_FFFF);
    assert_eq!(good(&format!(".word 0 0b{zeros}1")).1[0], 1);
    let longer = [format!("0b{zeros}01"), format!("0b{ones}1")];
    for wrong in ["0b", "0b2", "0b12", "0b1_0", "0bA", "0b1b", &longer[0], &longer[1]] {
        wrong_form(wrong);
    }
}

#[test]
fn b2_b3_no_capital_and_no_sign() {
    for wrong in ["0B1", "-0b1", "-0b0", "+0b1"] {
        wrong_form(wrong);
    }
    let ones = "1".repeat(32);
    assert_eq!(number(&format!("add $v0, $a0, $a1, $a2, 0b{ones}, 2")), 5);
}

#[test]
fn b4_the_same_ranges_at_each_place() {
    let (image, memory) = good(".word 0b111111111111 0b1\nadd $v0, $a0, $a1, $a2, 0b1010, 0b111111111111");
    assert_eq!((image[0], memory[4095]), (0x00345600AFFF, 1));
    assert_eq!(number("add $v0, $a0, $a1, $a2, 0b1000000000000, 2"), 5);
    assert_eq!(number("add $v0, $a0, $a1, $a2, 1, 0b1000000000000"), 5);
    assert_eq!(number(".word 0b1000000000000 1"), 5);
}

#[test]
fn b5_one_token_and_what_was_there_before() {
    for wrong in ["0b 1", "0 b1", "00b1"] {
        wrong_form(wrong);
    }
    let labelled = good("b1010: add $v0, $a0, $a1, $a2, b1010, 0x0b1");
    assert_eq!(labelled.0[0], 0x0034560000B1);
}

#[test]
fn c1_big_decimals() {
    for wrong in ["2048", "0000002048", "3000", "4095", "0000004095", "4096", "-2049"] {
        assert_eq!(number(&format!("add $v0, $a0, $a1, $a2, {wrong}, 2")), 5, "{wrong}");
        assert_eq!(number(&format!("add $v0, $a0, $a1, $a2, 1, {wrong}")), 5, "{wrong}");
    }
    for (right, word) in [("-2048, 2047", 0x0034568007FF), ("-1, -0", 0x003456FFF000), ("0000002047, -0000002048", 0x0034567FF800)] {
        assert_eq!(good(&format!("add $v0, $a0, $a1, $a2, {right}")).0[0], word, "{right}");
    }
}

#[test]
fn c2_word_is_not_touched() {
    let memory = good(".word 4095 3000\n.word 2048 4095").1;
    assert_eq!((memory[4095], memory[2048]), (3000, 4095));
}

#[test]
fn c3_whatever_the_instruction_does_with_it() {
    assert_eq!(number("beq $zero, $zero, $zero, $imm1, 3000, 0"), 5);
    assert_eq!(number("halt $zero, $zero, $zero, $zero, 0, 3000"), 5);
    assert_eq!(good("beq $zero, $zero, $zero, $imm1, 0xBB8, 0").0[0], 0x090001BB8000);
}

#[test]
fn c4_the_other_forms_keep_the_wider_range() {
    assert_eq!(good("add $v0, $a0, $a1, $a2, 0x800, 0xFFF").0[0], 0x003456800FFF);
    assert_eq!(good("add $v0, $a0, $a1, $a2, 0b100000000000, 0b111111111111").0[0], 0x003456800FFF);
    let before = format!("add {OPERANDS}\n").repeat(2048);
    assert_eq!(good(&format!("{before}L: add $v0, $a0, $a1, $a2, L, 2")).0[2048], 0x003456800002);
}

#[test]
fn c5_the_question_keeps_its_place() {
    assert_eq!(number("foo $v0, $a0, $a1, $a2, 4095, 2"), 4);
    assert_eq!(number("add $v0, $a0, $a1, $a2, 4095, M"), 5);
    assert_eq!(assembled(b"L:\nL: add $v0, $a0, $a1, $a2, 4095, 2"), Err((5, 2)));
    assert_eq!(assembled(b"add $v0, $a0, $a1, $a2, L, 2\nL: add $v0, $a0, $a1, $a2, 2048, 2"), Err((5, 2)));
    let full = format!("add {OPERANDS}\n").repeat(4096);
    assert_eq!(assembled(format!("{full}add $v0, $a0, $a1, $a2, 4095, 2").as_bytes()), Err((5, 4097)));
}

/// The token is 3 as a `.word` address, as its data and as each immediate.
#[track_caller]
fn wrong_form(token: &str) {
    for line in [format!(".word {token} 1"), format!(".word 1 {token}"), format!("add $v0, $a0, $a1, $a2, {token}, 2"), format!("add $v0, $a0, $a1, $a2, 1, {token}")] {
        assert_eq!(number(&line), 3, "{line}");
    }
}

#[test]
fn every_op_and_register_by_its_number() {
    let ops =
        "add sub mac and or xor sll sra srl beq bne blt bgt ble bge jal lw sw reti in out halt";
    for (opcode, op) in ops.split(' ').enumerate() {
        let image = good(&format!("{op} $zero, $zero, $zero, $zero, 0, 0")).0;
        assert_eq!(image[0], (opcode as u64) << 40, "{op}");
    }
    let registers = "$zero $imm1 $imm2 $v0 $a0 $a1 $a2 $t0 $t1 $t2 $s0 $s1 $s2 $gp $sp $ra";
    for (n, name) in registers.split(' ').enumerate() {
        let n = n as u64;
        let image = good(&format!("add {name}, {name}, {name}, {name}, 0, 0")).0;
        assert_eq!(image[0], n << 36 | n << 32 | n << 28 | n << 24, "{name}");
    }
}

#[test]
fn order_of_the_questions_on_one_line() {
    // 6 before 7, 7 before 8
    assert_eq!(
        assembled(b"L:\nL: add $v0, $a0, $a1, $a2, M, 0"),
        Err((6, 2))
    );
    // 5 before 6
    assert_eq!(
        assembled(b"L:\nL: add $v0, $a0, $a1, $a2, 4096, 0"),
        Err((5, 2))
    );
    // an unused label that is defined twice
    assert_eq!(assembled(b"L:\n\nL:"), Err((6, 3)));
}
