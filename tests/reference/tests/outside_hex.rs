//! Intel HEX files made by an outside tool, GNU objcopy (tests/hex_files), read here; and what is
//! written here, read by it, where the machine has it.

mod common;
use common::*;
use reference::hex::*;
use std::path::PathBuf;
use std::process::Command;

fn file(name: &str) -> Vec<u8> {
    let files = concat!(env!("CARGO_MANIFEST_DIR"), "/../hex_files");
    std::fs::read(format!("{files}/{name}")).expect(name)
}

/// The words that the files hold: word n is `factor` (n + 1) modulo 2^32.
fn words(factor: u32, count: u32) -> Vec<u32> {
    (0..count).map(|n| factor.wrapping_mul(n + 1)).collect()
}

fn data_words() -> Vec<u32> {
    words(2654435761, 4096)
}

fn disk_words() -> Vec<u32> {
    words(2246822519, 16384)
}

/// Words as bytes, "most significant first".
fn bytes(words: &[u32]) -> Vec<u8> {
    words.iter().flat_map(|word| word.to_be_bytes()).collect()
}

fn written_data(words: &[u32]) -> String {
    let mut text = vec![b'?'; 45_068];
    assert_eq!(write_hex_data(words, &mut text), Ok(45_068));
    String::from_utf8(text).unwrap()
}

fn written_disk(words: &[u32]) -> String {
    let mut text = vec![b'?'; 180_236];
    assert_eq!(write_hex_disk(words, &mut text), Ok(180_236));
    String::from_utf8(text).unwrap()
}

#[test]
fn the_data_memory() {
    let text = file("data.hex");
    let mut data = vec![0xDEADBEEF; 4096];
    assert_eq!(read_hex_data(&text, &mut data), Ok(()));
    assert_eq!(data, data_words());
    // the same but for CR
    let ours = written_data(&data_words()).replace('\n', "\r\n");
    assert!(ours.as_bytes() == text);
    // the disk's front has the same bytes
    let mut disk = vec![0xDEADBEEF; 16384];
    assert_eq!(read_hex_disk(&text, &mut disk), Ok(()));
    assert_eq!(disk[..4096], data_words());
    assert!(disk[4096..].iter().all(|word| *word == 0));
}

#[test]
fn parts_of_the_disk() {
    let text = file("disk_parts.hex");
    let mut disk = vec![0xDEADBEEF; 16384];
    assert_eq!(read_hex_disk(&text, &mut disk), Ok(()));
    let whole = bytes(&disk_words());
    let mut expected = vec![0; 65536];
    for part in [
        0x0003..0x0026,
        0x1FFD..0x2003,
        0x8000..0x8100,
        0xFF00..0x10000,
    ] {
        expected[part.clone()].copy_from_slice(&whole[part]);
    }
    assert!(bytes(&disk) == expected);
    // the records from 8000 and FF00 on, and the end record, are those that are written
    let ours = written_disk(&disk_words());
    let ours: Vec<&str> = ours.lines().collect();
    let text = String::from_utf8(text).unwrap();
    let theirs: Vec<&str> = text.lines().collect();
    assert_eq!(theirs.len(), 38);
    assert_eq!(theirs[5..21], ours[0x800..0x810]);
    assert_eq!(theirs[21..], ours[0xFF0..]);
    // the first record past the data memory is in line 6
    assert_eq!(
        pair(read_hex_data(text.as_bytes(), &mut [0; 4096])),
        Err((19, 6))
    );
}

#[test]
fn other_types() {
    for (name, line) in [
        ("type02.hex", 2),
        ("type03.hex", 3),
        ("type04.hex", 1),
        ("type05.hex", 3),
    ] {
        let mut disk = vec![7; 16384];
        let answer = pair(read_hex_disk(&file(name), &mut disk));
        assert_eq!(answer, Err((18, line)), "{name}");
        assert!(disk.iter().all(|word| *word == 7));
    }
}

/// Lets objcopy turn one file into another; None where the machine hasn't got it.
fn objcopy(from: &str, to: &str, name: &str, content: &[u8]) -> Option<Vec<u8>> {
    let folder = concat!("hex_", env!("CARGO_PKG_NAME"));
    let folder = PathBuf::from(env!("CARGO_TARGET_TMPDIR")).join(folder);
    std::fs::create_dir_all(&folder).unwrap();
    let (given, made) = (folder.join(name), folder.join(format!("{name}.out")));
    std::fs::write(&given, content).unwrap();
    let mut command = Command::new("objcopy");
    command.args(["-I", from, "-O", to]).arg(given).arg(&made);
    match command.status() {
        Ok(status) => assert!(status.success(), "objcopy"),
        Err(_) => {
            eprintln!("no objcopy here");
            return None;
        }
    }
    Some(std::fs::read(made).unwrap())
}

#[test]
fn objcopy_reads_what_is_written() {
    let (data, disk) = (data_words(), disk_words());
    for (name, text, words) in [
        ("data.hex", written_data(&data), data),
        ("disk.hex", written_disk(&disk), disk),
    ] {
        if let Some(read) = objcopy("ihex", "binary", name, text.as_bytes()) {
            assert!(read == bytes(&words), "{name}");
        }
    }
}

#[test]
fn objcopy_writes_what_is_written() {
    let (data, disk) = (data_words(), disk_words());
    for (name, words, text) in [
        ("data.bin", &data, written_data(&data)),
        ("disk.bin", &disk, written_disk(&disk)),
    ] {
        if let Some(theirs) = objcopy("binary", "ihex", name, &bytes(words)) {
            assert!(theirs == text.replace('\n', "\r\n").as_bytes(), "{name}");
        }
    }
}
