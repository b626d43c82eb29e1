//! The open points F1 to F13.

mod common;
use common::*;
use reference::files::*;

fn data(text: &str) -> Result<Vec<u32>, (u32, usize)> {
    let mut data = vec![0xDEADBEEF; 4096];
    match read_data(text.as_bytes(), &mut data) {
        Ok(()) => Ok(data),
        Err(refusal) => {
            assert!(data.iter().all(|word| *word == 0xDEADBEEF));
            Err((refusal.number, refusal.place))
        }
    }
}

fn frame(text: &str) -> Result<Vec<u8>, (u32, usize)> {
    let mut frame = vec![0xEE; 65536];
    match read_frame(text.as_bytes(), &mut frame) {
        Ok(()) => Ok(frame),
        Err(refusal) => {
            assert!(frame.iter().all(|byte| *byte == 0xEE));
            Err((refusal.number, refusal.place))
        }
    }
}

fn image(text: &str) -> Result<Vec<u64>, (u32, usize)> {
    let mut image = vec![u64::MAX; 4096];
    match read_image(text.as_bytes(), &mut image) {
        Ok(()) => Ok(image),
        Err(refusal) => {
            assert!(image.iter().all(|word| *word == u64::MAX));
            Err((refusal.number, refusal.place))
        }
    }
}

/// An irq2 file for a list of `room` places; the list as it is afterwards.
fn irq2(text: &str, room: usize) -> Result<(usize, Vec<u64>), (u32, usize)> {
    let mut list = vec![5555; room];
    match read_irq2(text.as_bytes(), &mut list) {
        Ok(count) => Ok((count, list)),
        Err(refusal) => {
            assert!(list.iter().all(|cycle| *cycle == 5555));
            Err((refusal.number, refusal.place))
        }
    }
}

#[test]
fn f1_empty_lines() {
    assert_eq!(frame("00\n\n"), Err((9, 2)));
    assert_eq!(frame("\n00\n"), Err((9, 1)));
    assert_eq!(data("00000001\n\n00000002\n"), Err((9, 2)));
    assert_eq!(irq2("1\n\n2\n", 9), Err((11, 2)));
    assert_eq!(irq2("1\n\n", 9), Err((11, 2)));
}

#[test]
fn f2_empty_text() {
    assert!(data("").unwrap().iter().all(|word| *word == 0));
    assert!(frame("").unwrap().iter().all(|byte| *byte == 0));
    assert!(image("").unwrap().iter().all(|word| *word == 0));
    assert_eq!(irq2("", 0), Ok((0, vec![])));
    assert_eq!(irq2("", 2), Ok((0, vec![5555, 5555])));
    assert_eq!(data("\n"), Err((9, 1)));
    assert_eq!(irq2("\n", 1), Err((11, 1)));
}

#[test]
fn f3_nothing_but_digits() {
    for wrong in [
        "00000000\r",
        " 00000000",
        "00000000 ",
        "0x000000",
        "0x00000000",
        "+0000000",
        "-0000000",
        "0000000",
        "000000000",
        "0000000G",
        "0000_000",
        "00000000#",
        "0000000@",
        "0000000`",
        "0000000:",
        "0000000/",
    ] {
        assert_eq!(
            data(&format!("12345678\n{wrong}\n")),
            Err((9, 2)),
            "{wrong}"
        );
    }
    for wrong in ["1\r", " 1", "1 ", "0x1", "+1", "-1", "A", "1a", "1.0"] {
        assert_eq!(irq2(&format!("0\n{wrong}\n"), 9), Err((11, 2)), "{wrong}");
    }
}

#[test]
fn f4_order_on_a_line() {
    let full = "00000000\n".repeat(4096);
    assert!(data(&full).is_ok());
    assert_eq!(data(&format!("{full}\n")), Err((10, 4097)));
    assert_eq!(data(&format!("{full}bad")), Err((10, 4097)));
    assert_eq!(data(&format!("{full}00000000")), Err((10, 4097)));
    // an earlier 9 comes first
    assert_eq!(data(&format!("bad\n{full}")), Err((9, 1)));
    let nearly = "00000000\n".repeat(4095);
    assert_eq!(data(&format!("{nearly}bad\n00000000")), Err((9, 4096)));
}

#[test]
fn f5_refused_changes_nothing_good_sets_all() {
    assert_eq!(data("00000001\nx"), Err((9, 2)));
    let words = data("00000001\n00000002\n").unwrap();
    assert_eq!(words[..3], [1, 2, 0]);
    assert!(words[2..].iter().all(|word| *word == 0));
}

#[test]
fn f6_the_last_lf() {
    assert_eq!(frame("00").unwrap(), frame("00\n").unwrap());
    assert_eq!(frame("12\nAB").unwrap()[..3], [0x12, 0xAB, 0]);
    assert_eq!(irq2("3\n4", 2), Ok((2, vec![3, 4])));
    assert_eq!(irq2("3\n4\n", 2), Ok((2, vec![3, 4])));
    // the full length without the last LF
    let text = "00\n".repeat(65536);
    assert!(frame(&text[..text.len() - 1]).is_ok());
}

#[test]
fn f7_irq2_digits_and_limit() {
    assert_eq!(
        irq2("0000000000001\n0000000000002\n", 2),
        Ok((2, vec![1, 2]))
    );
    // 2^40-2 = 1099511627774
    assert_eq!(irq2("1099511627774\n", 1), Ok((1, vec![1099511627774])));
    assert_eq!(irq2("1099511627775\n", 1), Err((11, 1)));
    assert_eq!(irq2("1099511627776\n", 1), Err((11, 1)));
    assert_eq!(irq2("9999999999999\n", 1), Err((11, 1)));
    assert_eq!(irq2("00000000000001\n", 1), Err((11, 1)));
    assert_eq!(irq2("99999999999999999999999999\n", 1), Err((11, 1)));
}

#[test]
fn f8_irq2_per_line() {
    assert_eq!(irq2("1\n2\n3\n", 2), Err((10, 3)));
    assert_eq!(irq2("1\n2\nx\n", 2), Err((10, 3)));
    assert_eq!(irq2("1", 0), Err((10, 1)));
    assert_eq!(irq2("5\n5\n", 9), Err((12, 2)));
    assert_eq!(irq2("5\n4\n", 9), Err((12, 2)));
    assert_eq!(irq2("5\n6\n6\nx\n", 9), Err((12, 3)));
    assert_eq!(irq2("5\nx\n4\n", 9), Err((11, 2)));
    // the limit before the rise: an equal line above the limit is 11
    assert_eq!(irq2("5\n1099511627775\n", 9), Err((11, 2)));
    // "doesn't touch places after them"
    assert_eq!(irq2("5\n60\n", 4), Ok((2, vec![5, 60, 5555, 5555])));
}

#[test]
fn f9_either_case() {
    assert_eq!(data("aBcDeF09\n").unwrap()[0], 0xABCDEF09);
    assert_eq!(image("aBcDeF0918fF\n").unwrap()[0], 0xABCDEF0918FF);
    assert_eq!(frame("fA\n").unwrap()[0], 0xFA);
}

#[test]
fn f10_written_with_every_lf() {
    let mut words = vec![0u32; 4096];
    words[0] = 0xabcdef01;
    words[4095] = 7;
    let mut text = vec![b'?'; 4096 * 9];
    assert_eq!(write_data(&words, &mut text), Ok(36864));
    let text = String::from_utf8(text).unwrap();
    assert!(text.starts_with("ABCDEF01\n00000000\n"));
    assert!(text.ends_with("00000000\n00000007\n"));
    assert_eq!(data(&text).unwrap(), words);
}

#[test]
fn f11_writers() {
    // exact room, one less, one more
    let words = vec![0x12345678u32; 4096];
    let mut text = vec![b'?'; 36863];
    assert_eq!(pair(write_data(&words, &mut text)), Err((15, 0)));
    assert!(text.iter().all(|byte| *byte == b'?'));
    let mut text = vec![b'?'; 36865];
    assert_eq!(write_data(&words, &mut text), Ok(36864));
    assert_eq!(text[36864], b'?');
    // 1 before 15
    assert_eq!(pair(write_data(&words[..4095], &mut [])), Err((1, 0)));
    assert_eq!(pair(write_image(&[0; 4097], &mut [])), Err((1, 0)));
    assert_eq!(pair(write_image(&[0; 4096], &mut [])), Err((15, 0)));
    assert_eq!(pair(write_frame(&[0; 65535], &mut [])), Err((1, 0)));
    assert_eq!(pair(write_frame(&[0; 65536], &mut [])), Err((15, 0)));
    // the image by its low 48 bits
    let words = vec![0xFFFF_0123_4567_89AB; 4096];
    let mut text = vec![b'?'; 4096 * 13];
    assert_eq!(write_image(&words, &mut text), Ok(4096 * 13));
    assert!(text.starts_with(b"0123456789AB\n"));
    let back = image(&String::from_utf8(text).unwrap()).unwrap();
    assert!(back.iter().all(|word| *word == 0x0123_4567_89AB));
    // the frame
    let pixels: Vec<u8> = (0..65536u32).map(|n| (n % 251) as u8).collect();
    let mut text = vec![b'?'; 65536 * 3];
    assert_eq!(write_frame(&pixels, &mut text), Ok(65536 * 3));
    assert!(text.starts_with(b"00\n01\n02\n"));
    assert_eq!(frame(&String::from_utf8(text).unwrap()).unwrap(), pixels);
}

#[test]
fn f12_reader_lengths() {
    for length in [0, 1, 4095, 4097] {
        assert_eq!(pair(read_image(b"bad", &mut vec![0; length])), Err((1, 0)));
        assert_eq!(pair(read_data(b"bad", &mut vec![0; length])), Err((1, 0)));
    }
    for length in [0, 4096, 65535, 65537] {
        assert_eq!(pair(read_frame(b"bad", &mut vec![0; length])), Err((1, 0)));
    }
    // line counts: 4,096 and 65,536
    assert_eq!(image(&"000000000000\n".repeat(4097)), Err((10, 4097)));
    assert_eq!(frame(&"00\n".repeat(65537)), Err((10, 65537)));
    // digit counts
    assert_eq!(image("00000000"), Err((9, 1)));
    assert_eq!(frame("000"), Err((9, 1)));
}

#[test]
fn f13_parts_of_the_disk() {
    let disk: Vec<u32> = (0..16384).collect();
    let mut text = vec![b'?'; 16384 * 9];
    assert_eq!(write_disk(&disk, 0, 128, &mut text), Ok(16384 * 9));
    assert!(text.starts_with(b"00000000\n00000001\n") && text.ends_with(b"00003FFF\n"));
    let mut text = vec![b'?'; 1152 + 1];
    assert_eq!(write_disk(&disk, 127, 1, &mut text), Ok(1152));
    assert!(text.starts_with(b"00003F80\n") && text.ends_with(b"00003FFF\n?"));
    assert_eq!(write_disk(&disk, 2, 1, &mut text), Ok(1152));
    assert!(text.starts_with(b"00000100\n"));
    for (first, count) in [
        (0, 0),
        (5, 0),
        (128, 0),
        (0, 129),
        (127, 2),
        (128, 1),
        (129, 1),
        (1, 128),
        (usize::MAX, 1),
        (1, usize::MAX),
        (usize::MAX, usize::MAX),
    ] {
        assert_eq!(
            pair(write_disk(&disk, first, count, &mut text)),
            Err((1, 0))
        );
    }
    assert_eq!(
        pair(write_disk(&disk[..16383], 0, 1, &mut text)),
        Err((1, 0))
    );
    assert_eq!(pair(write_disk(&disk, 0, 2, &mut text)), Err((15, 0)));
    assert!(text.starts_with(b"00000100\n"));

    // the reader
    for length in [0, 1, 127, 129, 16383, 16512] {
        assert_eq!(
            pair(read_disk(b"", &mut vec![7; length])),
            Err((1, 0)),
            "{length}"
        );
    }
    let mut part = vec![7; 256];
    assert_eq!(read_disk(b"00000009\n", &mut part), Ok(()));
    assert_eq!((part[0], part[1..].iter().sum::<u32>()), (9, 0));
    let mut part = vec![7; 128];
    assert_eq!(
        pair(read_disk("00000000\n".repeat(129).as_bytes(), &mut part)),
        Err((10, 129))
    );
    assert!(part.iter().all(|word| *word == 7));
    let mut whole = vec![7; 16384];
    let mut text = vec![0; 16384 * 9];
    write_disk(&disk, 0, 128, &mut text).unwrap();
    assert_eq!(read_disk(&text, &mut whole), Ok(()));
    assert_eq!(whole, disk);
}
