//! The open points H1 to H15. The checksums were worked out by hand: the last byte makes the sum of
//! a record's bytes 0 modulo 256.

mod common;
use common::*;
use reference::hex::*;

/// Reads into a data memory that holds something; a refused text must leave all of it.
fn data(text: impl AsRef<[u8]>) -> Result<Vec<u32>, (u32, usize)> {
    let mut data = vec![0xDEADBEEF; 4096];
    match read_hex_data(text.as_ref(), &mut data) {
        Ok(()) => Ok(data),
        Err(refusal) => {
            assert!(data.iter().all(|word| *word == 0xDEADBEEF));
            Err((refusal.number, refusal.place))
        }
    }
}

/// The same for the disk.
fn disk(text: impl AsRef<[u8]>) -> Result<Vec<u32>, (u32, usize)> {
    let mut disk = vec![0xDEADBEEF; 16384];
    match read_hex_disk(text.as_ref(), &mut disk) {
        Ok(()) => Ok(disk),
        Err(refusal) => {
            assert!(disk.iter().all(|word| *word == 0xDEADBEEF));
            Err((refusal.number, refusal.place))
        }
    }
}

/// Asks the same of both; gives the refusal.
fn both(text: impl AsRef<[u8]>) -> (u32, usize) {
    let text = text.as_ref();
    let refusal = data(text).expect_err("a bad text");
    assert_eq!(disk(text), Err(refusal));
    refusal
}

/// The words that are not zero, with their places, for the data memory and the disk alike.
fn named(text: &str) -> Vec<(usize, u32)> {
    let places = |words: Vec<u32>| -> Vec<(usize, u32)> {
        let all = words.into_iter().enumerate();
        all.filter(|(_, word)| *word != 0).collect()
    };
    let words = places(data(text).expect(text));
    assert_eq!(places(disk(text).expect(text)), words);
    words
}

/// Bytes 01 02 03 04 at address 0: 04 + 0A is 0E, so F2.
const FIRST: &str = ":0400000001020304F2";
/// Bytes AA BB CC DD at address 4: 04 + 04 + 30E is 316, so EA.
const SECOND: &str = ":04000400AABBCCDDEA";
/// The end record: 01, so FF.
const END: &str = ":00000001FF";

#[test]
fn h1_the_bad_record_is_the_end_record() {
    assert_eq!(both(format!("{END}\n{FIRST}\n")), (17, 1));
    assert_eq!(both(format!("{FIRST}\n{END}\n{SECOND}\n")), (17, 2));
    assert_eq!(both(format!("{FIRST}\n{END}\n{SECOND}\n{END}\n")), (17, 2));
    // with a mistake of its own: digits, another type (FA), 19
    assert_eq!(both(format!("{FIRST}\n{END}\nxyz\n")), (17, 2));
    assert_eq!(both(format!("{END}\n:020000040000FA\n")), (17, 1));
    assert_eq!(both(format!("{FIRST}\n{END}\n{FIRST}\n")), (17, 2));
}

#[test]
fn h2_any_byte_after_the_end() {
    for after in [
        "\n", "\r", "\r\n", " ", "\t", "\x1A", "\0", ":", "0", "\n\n", " \n",
    ] {
        assert_eq!(both(format!("{END}\n{after}")), (17, 1), "{after:?}");
        assert_eq!(both(format!("{END}\r\n{after}")), (17, 1), "{after:?}");
        let third = format!("{FIRST}\n{SECOND}\n{END}\n{after}");
        assert_eq!(both(&third), (17, 3), "{after:?}");
    }
    // on its line
    for after in [" ", "\t", "\x1A", "\0", "0", "00", END] {
        assert_eq!(both(format!("{END}{after}")), (17, 1), "{after:?}");
        assert_eq!(both(format!("{END}{after}\n")), (17, 1), "{after:?}");
    }
    assert_eq!(both(format!("{END}\n{END}")), (17, 1));
    assert_eq!(both(format!("{END}\n{END}\n")), (17, 1));
}

#[test]
fn h3_the_end_records_address() {
    // 12 + 34 + 01 is 47, so B9
    assert_eq!(named(":00123401B9"), []);
    // FF + FF + 01 is 1FF, so 01
    assert_eq!(named(":00FFFF0101\n"), []);
    // below the last byte and past the data memory: 40 + 01 is 41, so BF
    assert_eq!(named(&format!("{FIRST}\n:00000001FF\n")), [(0, 0x01020304)]);
    assert_eq!(named(&format!("{FIRST}\n:00400001BF")), [(0, 0x01020304)]);
    assert_eq!(both(":00123401FF"), (17, 1));
    assert_eq!(both(":00000001B9"), (17, 1));
}

#[test]
fn h4_records_without_bytes() {
    // at 0000, FFFF (1FE, so 02) and 4000 (40, so C0), before and after named bytes
    for empty in [":0000000000", ":00FFFF0002", ":00400000C0"] {
        assert_eq!(named(&format!("{empty}\n{END}\n")), []);
        assert_eq!(
            named(&format!("{empty}\n{FIRST}\n{empty}\n{empty}\n{END}\n")),
            [(0, 0x01020304)]
        );
        // the next one is measured against the last byte before it
        assert_eq!(
            named(&format!("{FIRST}\n{empty}\n{SECOND}\n{END}\n")),
            [(0, 0x01020304), (1, 0xAABBCCDD)]
        );
        assert_eq!(both(format!("{FIRST}\n{empty}\n{FIRST}\n{END}\n")), (19, 3));
        // 17 is asked of it
        let last = empty.len() - 1;
        assert_eq!(both(format!("{}1\n{END}", &empty[..last])), (17, 1));
    }
}

#[test]
fn h5_past_the_memory() {
    // the data memory's last byte, 3FFF: 01 + 3F + FF + 5A is 199, so 67
    let words = data(format!(":013FFF005A67\n{END}")).unwrap();
    assert_eq!((words[4095], words[4094]), (0x0000005A, 0));
    // one byte too many: 02 + 3F + FF + 5A + A5 is 23F, so C1; 4000: 01 + 40 + 5A is 9B, so 65
    for past in [":023FFF005AA5C1", ":014000005A65"] {
        assert_eq!(data(format!("{past}\n{END}")), Err((19, 1)));
        assert_eq!(data(format!("{FIRST}\n{past}\n{END}")), Err((19, 2)));
        assert!(disk(format!("{FIRST}\n{past}\n{END}")).is_ok());
    }
    // the whole last four bytes, 3FFC: 04 + 3F + FC + 0A is 149, so B7
    let words = data(format!(":043FFC0001020304B7\n{END}")).unwrap();
    assert_eq!((words[4095], words[4094]), (0x01020304, 0));
    // from 3FFD: 14A, so B6
    assert_eq!(data(format!(":043FFD0001020304B6\n{END}")), Err((19, 1)));

    // the disk's last byte, FFFF: 01 + FF + FF + 5A is 259, so A7
    let last = format!(":01FFFF005AA7\n{END}");
    assert_eq!(disk(&last).unwrap()[16383], 0x0000005A);
    assert_eq!(data(&last), Err((19, 1)));
    // addresses don't wrap: 02 + FF + FF is 200, so 00
    assert_eq!(disk(format!(":02FFFF00000000\n{END}")), Err((19, 1)));
    // from FFFC: 04 + FF + FC + 0A is 209, so F7; from FFFD: F6
    let words = disk(format!(":04FFFC0001020304F7\n{END}")).unwrap();
    assert_eq!((words[16383], words[16382]), (0x01020304, 0));
    assert_eq!(disk(format!(":04FFFD0001020304F6\n{END}")), Err((19, 1)));
    // 255 zeros from FFFF: FF + FF + FF is 2FD, so 03
    let long = format!(":FFFFFF00{}03\n{END}", "00".repeat(255));
    assert_eq!(both(&long), (19, 1));
    // and up to FFFF, from FF01: FF + FF + 01 is 1FF, so 01
    let long = format!(":FFFF0100{}01\n{END}", "00".repeat(255));
    assert_eq!(disk(&long), Ok(vec![0; 16384]));
}

#[test]
fn h6_line_ends() {
    for first in ["\n", "\r\n"] {
        for second in ["\n", "\r\n"] {
            for last in ["", "\r", "\n", "\r\n"] {
                let text = format!("{FIRST}{first}{SECOND}{second}{END}{last}");
                assert_eq!(named(&text), [(0, 0x01020304), (1, 0xAABBCCDD)], "{text:?}");
            }
        }
    }
    for last in ["", "\r", "\n", "\r\n"] {
        assert_eq!(named(&format!("{END}{last}")), []);
    }
    for wrong in ["\r\r\n", "\r\r", "\n\r", "\r \n", " \r\n", "\r\0"] {
        assert_eq!(both(format!("{END}{wrong}")), (17, 1), "{wrong:?}");
    }
    for wrong in [
        "\r\r\n", "\r", "\r\r", "\r \n", " \r\n", " \n", "\x0B", "\x0C\n",
    ] {
        let text = format!("{FIRST}{wrong}{SECOND}\n{END}\n");
        assert_eq!(both(&text), (17, 1), "{wrong:?}");
    }
    // LF CR: the CR begins the next line
    assert_eq!(both(format!("{FIRST}\n\r{SECOND}\n\r{END}")), (17, 2));
    // CR at each place before the end of the line
    for at in 0..FIRST.len() {
        let text = format!("{}\r{}\n{END}\n", &FIRST[..at], &FIRST[at..]);
        assert_eq!(both(&text), (17, 1), "{at}");
    }
    // the other records' CR without LF
    assert_eq!(both(format!("{FIRST}\r")), (18, 2));
    assert_eq!(both(format!("{FIRST}\r\r")), (17, 1));
}

#[test]
fn h7_empty_lines() {
    for empty in ["\n", "\r\n", " \n", "\t\n", " \r\n", "  \n"] {
        assert_eq!(both(empty), (17, 1), "{empty:?}");
        assert_eq!(both(format!("{empty}{END}\n")), (17, 1), "{empty:?}");
        // of a text without end record
        assert_eq!(both(format!("{FIRST}\n{empty}")), (17, 2), "{empty:?}");
        let within = format!("{FIRST}\n{empty}{SECOND}\n{END}\n");
        assert_eq!(both(&within), (17, 2), "{empty:?}");
    }
    assert_eq!(both("\n\n"), (17, 1));
    for last in ["\r", " ", "\t"] {
        assert_eq!(both(last), (17, 1), "{last:?}");
        assert_eq!(both(format!("{FIRST}\n{last}")), (17, 2), "{last:?}");
    }
    assert_eq!(both(format!("{FIRST}\n{SECOND}\n\n")), (17, 3));
}

#[test]
fn h8_missing_end() {
    assert_eq!(both(""), (18, 1));
    for last in ["", "\n", "\r", "\r\n"] {
        assert_eq!(both(format!("{FIRST}{last}")), (18, 2), "{last:?}");
        assert_eq!(
            both(format!("{FIRST}\n{SECOND}{last}")),
            (18, 3),
            "{last:?}"
        );
        assert_eq!(both(format!(":0000000000{last}")), (18, 2), "{last:?}");
        // another type is at its own line, the last one too
        assert_eq!(both(format!(":020000040000FA{last}")), (18, 1), "{last:?}");
        let second = format!("{FIRST}\n:020000040000FA{last}");
        assert_eq!(both(&second), (18, 2), "{last:?}");
    }
    assert_eq!(
        both(format!("{FIRST}\n:020000040000FA\n{SECOND}\n{END}\n")),
        (18, 2)
    );
}

#[test]
fn h9_form_digit_checksum() {
    for wrong in [
        // no `:`, something before it, two, another byte for it
        "0400000001020304F2",
        " :0400000001020304F2",
        "\t:0400000001020304F2",
        "S:0400000001020304F2",
        "::0400000001020304F2",
        ";0400000001020304F2",
        "S0400000001020304F2",
        // too short
        ":",
        ":0",
        ":00",
        ":0000",
        ":000000",
        ":00000000",
        ":000000000",
        ":00000001F",
        ":01FF",
        // an odd number of digits
        ":0400000001020304F",
        ":0400000001020304F20",
        ":040000000102034F2",
        // the count says 3 (0D, so F3) or 5 (0F, so F1), 0 or 255: 0A, so F6; FF + 0A is 109, so F7
        ":0300000001020304F3",
        ":0500000001020304F1",
        ":0000000001020304F6",
        ":FF00000001020304F7",
        // a byte more or less after a good record
        ":0400000001020304F200",
        ":0400000001020304",
        // checksums: F2 is right; the sum itself, the sum of the data alone, one more, one less
        ":04000000010203040E",
        ":0400000001020304F6",
        ":0400000001020304F3",
        ":0400000001020304F1",
        ":040000000102030472",
        // no digits
        ":0400000001020304G2",
        ":0400000001020304FG",
        ":040000000x020304F2",
        ":0x04000001020304F2",
        ":04000000010203+4F2",
        ":0400000001020304-2",
        ":040000000102030 F2",
        ":04 0000 00 01020304 F2",
        ":0400000001020304F2 ",
        ":0400000001020304/2",
        ":0400000001020304:2",
        ":0400000001020304@2",
        ":0400000001020304`2",
        ":0400000001020304g2",
        ":0400000001020304F2h",
        ":0400000001020304F2;",
    ] {
        assert_eq!(both(format!("{wrong}\n{END}\n")), (17, 1), "{wrong}");
        assert_eq!(both(format!("{wrong}\r\n{END}")), (17, 1), "{wrong}");
        assert_eq!(both(wrong), (17, 1), "{wrong}");
    }
    // digits of either case, each by itself: 04 + 04 + 30E is 316, so EA
    for good in [
        ":04000400AABBCCDDEA",
        ":04000400aabbccddea",
        ":04000400aAbBcCdDEa",
        ":04000400AabBCcDdeA",
    ] {
        assert_eq!(named(&format!("{good}\n{END}")), [(1, 0xAABBCCDD)]);
    }
    assert_eq!(named(":00000001ff"), []);
    assert_eq!(named(":00000001fF\n"), []);
    // a sum of 0: 01 + FF is 100, so 00
    assert_eq!(named(&format!(":01000000FF00\n{END}")), [(0, 0xFF000000)]);
    // each other value of the checksum is wrong
    for checksum in 0..=255 {
        let text = format!(":0400000001020304{checksum:02X}\n{END}\n");
        if checksum == 0xF2 {
            assert_eq!(named(&text), [(0, 0x01020304)]);
        } else {
            assert_eq!(both(&text), (17, 1));
        }
    }
    // one byte changed: right only where it is the same digit in the other case
    for at in 0..FIRST.len() {
        for byte in 0..=255 {
            let mut text = format!("{FIRST}\n{END}\n").into_bytes();
            if !text[at].eq_ignore_ascii_case(&byte) {
                text[at] = byte;
                assert_eq!(both(&text), (17, 1), "{byte} at {at}");
            }
        }
    }
}

#[test]
fn h10_the_first_bad_record_then_the_order() {
    // 19 in line 2 before 17 in line 3, 18 before 17, 17 before 18 and 19
    assert_eq!(both(format!("{FIRST}\n{FIRST}\nbad\n")), (19, 2));
    assert_eq!(
        both(format!("{FIRST}\n{FIRST}\n:020000040000FA\n")),
        (19, 2)
    );
    assert_eq!(both(format!(":020000040000FA\nbad\n{FIRST}\n")), (18, 1));
    assert_eq!(both(format!(":020000040000FA\n{END}\n{END}\n")), (18, 1));
    assert_eq!(both(format!("bad\n:020000040000FA\n{END}\n")), (17, 1));
    assert_eq!(both(format!("{FIRST}\nbad\n{FIRST}\n{END}\n")), (17, 2));
    // 19 before a missing end
    assert_eq!(both(format!("{FIRST}\n{FIRST}\n")), (19, 2));
    // another type: with a wrong checksum 17
    assert_eq!(both(":020000040000FB\n"), (17, 1));
    // past the memory and below the last byte 18: 02 + FF + FF + 02 is 202, so FE
    assert_eq!(both(format!(":02FFFF020000FE\n{END}")), (18, 1));
    assert_eq!(both(format!("{FIRST}\n:020000020000FC\n{END}\n")), (18, 2));
    // an end record with data: 01 + 01 is 02, so FE; past the memory: 02 + FF + FF + 01 is 201, so
    // FF; records after it don't matter
    assert_eq!(both(":0100000100FE\n"), (17, 1));
    assert_eq!(both(":02FFFF010000FF\n"), (17, 1));
    assert_eq!(
        both(format!("{FIRST}\n:0100000100FE\n{SECOND}\n{END}")),
        (17, 2)
    );
    // past the memory with a wrong checksum: 65 is right
    assert_eq!(data(format!(":014000005A66\n{END}\n")), Err((17, 1)));
    // not above the last byte and past the memory: one number
    assert_eq!(both(format!("{FIRST}\n:02FFFF00000000\n{END}")), (19, 2));
    // not above the last byte with a wrong checksum
    assert_eq!(both(format!("{FIRST}\n:0400000001020304F3\n")), (17, 2));
}

#[test]
fn h11_first_addresses() {
    // above by one
    assert_eq!(
        named(&format!("{FIRST}\n{SECOND}\n{END}\n")),
        [(0, 0x01020304), (1, 0xAABBCCDD)]
    );
    // the last byte named, 3: 01 + 03 + 5A is 5E, so A2
    assert_eq!(both(format!("{FIRST}\n:010003005AA2\n{END}")), (19, 2));
    // below it, past it in its bytes: 02 + 03 + 5A + A5 is 104, so FC
    assert_eq!(both(format!("{FIRST}\n:020003005AA5FC\n{END}")), (19, 2));
    assert_eq!(both(format!("{SECOND}\n{FIRST}\n{END}\n")), (19, 2));
    // byte 0 twice: 01, so FF
    assert_eq!(
        both(format!(":0100000000FF\n:0100000000FF\n{END}")),
        (19, 2)
    );
    // a gap of one byte: 01 + 05 + 5A is 60, so A0
    assert_eq!(
        named(&format!("{FIRST}\n:010005005AA0\n{END}")),
        [(0, 0x01020304), (1, 0x005A0000)]
    );
    // before the first named byte any address
    assert_eq!(named(&format!(":010003005AA2\n{END}")), [(0, 0x0000005A)]);
    assert_eq!(named(&format!(":010005005AA0\n{END}")), [(1, 0x005A0000)]);
    // no alignment, bytes 3 to 5: 03 + 03 + 1C2 is 1C8, so 38
    assert_eq!(
        named(&format!(":030003005AA5C338\n{END}")),
        [(0, 0x0000005A), (1, 0xA5C30000)]
    );
    // one word in four records: 01 + 5A is 5B, so A5; A4, A3, A2
    assert_eq!(
        named(&format!(
            ":010000005AA5\n:010001005AA4\n:010002005AA3\n:010003005AA2\n{END}"
        )),
        [(0, 0x5A5A5A5A)]
    );
    // 255 bytes 01: FF + FF is 1FE, so 02
    let words = data(format!(":FF000000{}02\n{END}", "01".repeat(255))).unwrap();
    assert_eq!(words[..63], [0x01010101; 63]);
    assert_eq!(words[63..65], [0x01010100, 0]);
    // 255 bytes, then byte 255: 01 + FF + 5A is 15A, so A6; byte 254: A7
    let long = format!(":FF000000{}02", "01".repeat(255));
    let words = data(format!("{long}\n:0100FF005AA6\n{END}")).unwrap();
    assert_eq!(words[63..65], [0x0101015A, 0]);
    assert_eq!(both(format!("{long}\n:0100FE005AA7\n{END}")), (19, 2));
}

#[test]
fn h12_what_is_written() {
    let zeros = "0".repeat(32);
    let mut words = vec![0u32; 4096];
    let mut text = vec![b'?'; 45_068];
    assert_eq!(write_hex_data(&words, &mut text), Ok(45_068));
    let whole = String::from_utf8(text).unwrap();
    let lines: Vec<&str> = whole.split('\n').collect();
    // 1,024 records, the end record, and nothing after its LF
    assert_eq!(lines.len(), 1026);
    // 10, so F0; 20, so E0; 10 + 3F + F0 is 13F, so C1
    assert_eq!(lines[0], format!(":10000000{zeros}F0"));
    assert_eq!(lines[1], format!(":10001000{zeros}E0"));
    assert_eq!(lines[1023], format!(":103FF000{zeros}C1"));
    assert_eq!(lines[1024..], [END, ""]);
    assert_eq!(data(&whole), Ok(words.clone()));

    // 01 + 23 + 45 + 67 + 89 + AB + CD + EF is 3C0, with 10 3D0, so 30; 13F + 3C0 is 4FF, so 01
    words[..2].copy_from_slice(&[0x01234567, 0x89abcdef]);
    words[4094..].copy_from_slice(&[0x01234567, 0x89abcdef]);
    let mut text = vec![b'?'; 45_068];
    assert_eq!(write_hex_data(&words, &mut text), Ok(45_068));
    let whole = String::from_utf8(text).unwrap();
    assert!(whole.starts_with(":100000000123456789ABCDEF000000000000000030\n:1000"));
    assert!(whole.ends_with("\n:103FF00000000000000000000123456789ABCDEF01\n:00000001FF\n"));
    assert!(!whole.contains('\r'));
    assert_eq!(data(&whole), Ok(words.clone()));

    // exact room, one less, one more
    let mut text = vec![b'?'; 45_067];
    assert_eq!(pair(write_hex_data(&words, &mut text)), Err((15, 0)));
    assert!(text.iter().all(|byte| *byte == b'?'));
    let mut text = vec![b'?'; 45_069];
    assert_eq!(write_hex_data(&words, &mut text), Ok(45_068));
    assert_eq!(text[45_066..], *b"F\n?");
    assert_eq!(pair(write_hex_data(&words, &mut [])), Err((15, 0)));

    // the disk: 10 + FF + F0 is 1FF, so 01; address FF00: 10 + FF is 10F, so F1
    let mut words = vec![0u32; 16384];
    words[16383] = 0x000000ff;
    let mut text = vec![b'?'; 180_237];
    assert_eq!(write_hex_disk(&words, &mut text), Ok(180_236));
    assert_eq!(text.pop(), Some(b'?'));
    let whole = String::from_utf8(text).unwrap();
    let lines: Vec<&str> = whole.split('\n').collect();
    assert_eq!(lines.len(), 4098);
    assert_eq!(lines[0], format!(":10000000{zeros}F0"));
    assert_eq!(lines[4080], format!(":10FF0000{zeros}F1"));
    // 1FF + FF is 2FE, so 02
    assert_eq!(lines[4095], format!(":10FFF000{}FF02", "0".repeat(30)));
    assert_eq!(lines[4096..], [END, ""]);
    assert_eq!(disk(&whole), Ok(words.clone()));
    let mut text = vec![b'?'; 180_235];
    assert_eq!(pair(write_hex_disk(&words, &mut text)), Err((15, 0)));
    assert!(text.iter().all(|byte| *byte == b'?'));
    // the disk's text names bytes past the data memory: 4000 is in line 1025
    assert_eq!(data(&whole), Err((19, 1025)));
}

#[test]
fn h13_whole_memories() {
    let text = format!("{FIRST}\n{END}\n");
    for length in [0, 1, 128, 4095, 4097, 16384] {
        for text in [text.as_str(), "bad", ""] {
            let mut words = vec![7; length];
            let answer = pair(read_hex_data(text.as_bytes(), &mut words));
            assert_eq!(answer, Err((1, 0)), "{length}");
            assert!(words.iter().all(|word| *word == 7));
        }
        // 1 before 15
        let words = vec![7; length];
        assert_eq!(pair(write_hex_data(&words, &mut [])), Err((1, 0)));
        let mut text = vec![b'?'; 200_000];
        assert_eq!(pair(write_hex_data(&words, &mut text)), Err((1, 0)));
        assert!(text.iter().all(|byte| *byte == b'?'));
    }
    for length in [0, 1, 128, 256, 4096, 16256, 16383, 16385, 16512] {
        for text in [text.as_str(), "bad", ""] {
            let mut words = vec![7; length];
            let answer = pair(read_hex_disk(text.as_bytes(), &mut words));
            assert_eq!(answer, Err((1, 0)), "{length}");
            assert!(words.iter().all(|word| *word == 7));
        }
        let words = vec![7; length];
        assert_eq!(pair(write_hex_disk(&words, &mut [])), Err((1, 0)));
        let mut text = vec![b'?'; 200_000];
        assert_eq!(pair(write_hex_disk(&words, &mut text)), Err((1, 0)));
        assert!(text.iter().all(|byte| *byte == b'?'));
    }
}

#[test]
fn h14_other_types_and_long_texts() {
    for other in [
        // type 02 (02 + 02 is 04, so FC), 03, 04, 05 as tools write them: 04 + 03 + 46 is 4D, so B3;
        // 04 + 05 + 114 is 11D, so E3
        ":020000020000FC",
        ":0400000300001234B3",
        ":020000040000FA",
        ":0400000512345678E3",
        // whatever the count: a type 04 with 3 bytes (07, so F9) and with none, a type 02 with none
        ":03000004000000F9",
        ":00000004FC",
        ":00000002FE",
        // types that have no name: 06, 10, 80, FF; FF with a byte is 100, so 00
        ":00000006FA",
        ":00000010F0",
        ":0000008080",
        ":000000FF01",
        ":010000FF0000",
    ] {
        assert_eq!(both(format!("{other}\n{END}\n")), (18, 1), "{other}");
        assert_eq!(both(format!("{FIRST}\n{other}\n{END}")), (18, 2), "{other}");
    }
    // 360,000 bytes of records without data
    let many = ":0000000000\n".repeat(30_000);
    assert_eq!(named(&format!("{many}{FIRST}\n{END}\n")), [(0, 0x01020304)]);
    assert_eq!(both(&many), (18, 30_001));
    // a byte a record, over the whole data memory
    let mut text = String::new();
    for address in 0..16384u32 {
        let sum = 1 + address / 256 + address % 256 + 0x5A;
        text += &format!(":01{address:04X}005A{:02X}\n", (1024 - sum) % 256);
    }
    assert_eq!(data(format!("{text}{END}")), Ok(vec![0x5A5A5A5A; 4096]));
    assert_eq!(data(format!("{text}{FIRST}\n{END}")), Err((19, 16385)));
    // a long line that is no record
    assert_eq!(both(format!(":{}\n{END}", "00".repeat(300_000))), (17, 1));
}

#[test]
fn h15_refused_changes_nothing_good_sets_all() {
    // `data` and `disk` look at every word of a refused call
    assert_eq!(both(format!("{FIRST}\n{SECOND}\n")), (18, 3));
    assert_eq!(both(format!("{FIRST}\n{SECOND}\n{SECOND}\n{END}")), (19, 3));
    assert_eq!(data(END), Ok(vec![0; 4096]));
    assert_eq!(disk(END), Ok(vec![0; 16384]));
    let mut expected = vec![0; 16384];
    expected[1] = 0xAABBCCDD;
    assert_eq!(disk(format!("{SECOND}\n{END}")), Ok(expected.clone()));
    expected.truncate(4096);
    assert_eq!(data(format!("{SECOND}\n{END}")), Ok(expected));
}

/// "A written image reads back the same, for the data memory and for the 64 KiB disk".
#[test]
fn written_reads_back() {
    let mut numbers = Numbers(2);
    for turn in 0..8 {
        let word = |numbers: &mut Numbers| match turn {
            0 => 0,
            1 => 0xFFFFFFFF,
            _ => numbers.next() as u32,
        };
        let words: Vec<u32> = (0..16384).map(|_| word(&mut numbers)).collect();
        let mut text = vec![b'?'; 180_236];
        assert_eq!(write_hex_disk(&words, &mut text), Ok(180_236));
        assert_eq!(disk(text), Ok(words.clone()));
        let words = words[..4096].to_vec();
        let mut text = vec![b'?'; 45_068];
        assert_eq!(write_hex_data(&words, &mut text), Ok(45_068));
        let text = String::from_utf8(text).unwrap();
        assert_eq!(data(&text), Ok(words.clone()));
        // in small letters, with CR, without the last LF
        let other = text.to_lowercase().replace('\n', "\r\n");
        assert_eq!(data(&other), Ok(words.clone()));
        assert_eq!(data(&other[..other.len() - 1]), Ok(words.clone()));
        assert_eq!(data(&other[..other.len() - 2]), Ok(words));
    }
}
