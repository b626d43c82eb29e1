//! The program `reference` and its subcommands, and the expected files that it writes for the programs
//! check_commands and check_examples.

use reference::record::{edition_1, read};
use reference::simlog::simlog;
use std::io::Write;
use std::path::PathBuf;
use std::process::{Command, Stdio};

/// Runs the program; gives its output and exit code.
fn program(arguments: &[&str], input: &str) -> (String, i32) {
    let mut child = Command::new(env!("CARGO_BIN_EXE_reference"))
        .args(arguments)
        .stdin(Stdio::piped())
        .stdout(Stdio::piped())
        .stderr(Stdio::null())
        .spawn()
        .unwrap();
    child
        .stdin
        .take()
        .unwrap()
        .write_all(input.as_bytes())
        .unwrap();
    let output = child.wait_with_output().unwrap();
    (
        String::from_utf8(output.stdout).unwrap(),
        output.status.code().unwrap(),
    )
}

fn directory(name: &str) -> PathBuf {
    let path = PathBuf::from(env!("CARGO_TARGET_TMPDIR")).join(name);
    std::fs::create_dir_all(&path).unwrap();
    path
}

#[test]
fn simlog_prints_the_example() {
    let input = "140102009005\n150000000000\n";
    let (printed, code) = program(&["simlog"], input);
    assert_eq!(
        (printed.as_bytes(), code),
        (&simlog(input.as_bytes())[..], 0)
    );
    assert_eq!(program(&["simlog"], "0\n").0, "N 9 1\n");
}

#[test]
fn asm_list_and_run() {
    let place = directory("asm_list_and_run");
    let path = |name: &str| place.join(name).to_str().unwrap().to_string();
    let source = "lw $v0, $zero, $imm1, $zero, 2, 0\n\
                  out $zero, $zero, $imm1, $imm2, 15, 1\n\
                  out $zero, $zero, $imm1, $imm2, 14, 1\n\
                  out $zero, $zero, $imm1, $imm2, 21, 7\n\
                  out $zero, $zero, $imm1, $imm2, 22, 1\n\
                  in $t0, $zero, $imm1, $zero, 17, 0\n\
                  bne $zero, $t0, $zero, $imm1, 5, 0\n\
                  halt $zero, $zero, $zero, $zero, 0, -1\n\
                  .word 2 0x1f\n";
    std::fs::write(path("p.asm"), source).unwrap();
    let (printed, code) = program(
        &["asm", &path("p.asm"), &path("i"), &path("d"), "--short"],
        "",
    );
    assert_eq!((printed.as_str(), code), ("", 0));
    let image = std::fs::read_to_string(path("i")).unwrap();
    assert_eq!(
        image,
        "103010002000\n14001200F001\n14001200E001\n140012015007\n140012016001\n137010011000\n\
         0A0701005000\n150000000FFF\n"
    );
    assert_eq!(
        std::fs::read_to_string(path("d")).unwrap(),
        "00000000\n00000000\n0000001F\n"
    );

    let (listing, code) = program(&["list", &path("i")], "");
    let expected = source.replace(".word 2 0x1f\n", "");
    assert_eq!((listing, code), (expected, 0));

    std::fs::write(
        path("disk"),
        format!("{}0000ABCD\n", "00000000\n".repeat(128)),
    )
    .unwrap();
    std::fs::write(path("irq2"), "1\n3\n").unwrap();
    let (log, code) = program(
        &[
            "run",
            &path("i"),
            "--data",
            &path("d"),
            "--disk",
            &path("disk"),
            "--irq2",
            &path("irq2"),
            "--memories",
            place.to_str().unwrap(),
        ],
        "",
    );
    assert_eq!(code, 0);
    // The disk is free after cycle 2 + 1024; the in of cycle 1027 sees it, the halt is cycle 1029.
    assert!(log.ends_with("\nE 1 1030 1006\n"));
    assert!(log.contains("H 2 WRITE diskcmd 00000001\n"));
    assert!(log.contains("T 001 14001200F001 00000000 0000000F 00000001 0000001F "));
    let data = std::fs::read_to_string(path("dmemout.txt")).unwrap();
    assert!(data.starts_with("0000ABCD\n00000000\n00000000\n") && data.len() == 4096 * 9);
    let disk = std::fs::read_to_string(path("diskout.txt")).unwrap();
    assert!(disk.len() == 16384 * 9 && &disk[128 * 9..129 * 9] == "0000ABCD\n");
    let frame = std::fs::read_to_string(path("monitor.txt")).unwrap();
    assert!(frame.starts_with("07\n00\n") && frame.len() == 65536 * 3);

    let (log, code) = program(&["run", &path("i"), "--budget", "2"], "");
    assert!(log.ends_with("\nE 0 2 2\n"));
    assert_eq!(
        (
            log.lines().filter(|line| line.starts_with('T')).count(),
            code
        ),
        (2, 0)
    );

    // the full files of asm
    program(&["asm", &path("p.asm"), &path("i"), &path("d")], "");
    assert_eq!(std::fs::read(path("i")).unwrap().len(), 4096 * 13);
    assert_eq!(std::fs::read(path("d")).unwrap().len(), 4096 * 9);
    assert_eq!(program(&["run", &path("i"), "--budget", "2"], "").0, log);
}

#[test]
fn run_from_a_saved_record() {
    let place = directory("run_from_a_saved_record");
    let path = |name: &str| place.join(name).to_str().unwrap().to_string();
    // The disk reads sector 0 to address 0; the program counts in $v0 and stores it at 5, word 5.
    let source = "out $zero, $zero, $imm1, $imm2, 14, 1\n\
                  add $v0, $v0, $imm1, $zero, 1, 0\n\
                  sw $v0, $zero, $imm1, $zero, 5, 0\n\
                  beq $zero, $zero, $zero, $imm1, 1, 0\n";
    std::fs::write(path("p.asm"), source).unwrap();
    program(&["asm", &path("p.asm"), &path("i"), &path("d")], "");
    std::fs::write(path("disk"), "00000007\n".repeat(128)).unwrap();
    let run = |data: &str, disk: &str, more: &[&str]| {
        let (image, data, disk, here) = (path("i"), path(data), path(disk), path(""));
        let mut arguments = vec!["run", &image, "--data", &data, "--disk", &disk];
        arguments.extend_from_slice(&["--memories", &here]);
        arguments.extend_from_slice(more);
        program(&arguments, "")
    };
    let (whole, code) = run("d", "disk", &["--budget", "100"]);
    assert_eq!(code, 0);
    let end = std::fs::read(path("record.bin")).unwrap();
    let data = std::fs::read(path("dmemout.txt")).unwrap();
    // cut after 50 cycles: words 0 to 5 have come
    let (first, _) = run("d", "disk", &["--budget", "50"]);
    std::fs::copy(path("record.bin"), path("cut.bin")).unwrap();
    assert_eq!(std::fs::read(path("cut.bin")).unwrap().len(), 94);
    let cut = path("cut.bin");
    let (second, _) = run(
        "dmemout.txt",
        "diskout.txt",
        &["--record", &cut, "--budget", "50"],
    );
    assert_eq!(first.replace("E 0 50 49\n", "") + &second, whole);
    assert_eq!(std::fs::read(path("record.bin")).unwrap(), end);
    assert_eq!(std::fs::read(path("dmemout.txt")).unwrap(), data);
    // a record that is refused
    std::fs::write(path("cut.bin"), [2; 91]).unwrap();
    assert_eq!(
        run("d", "disk", &["--record", &cut]),
        ("N 14 0\n".to_string(), 1)
    );
}

/// The path of a file of a crate.
fn of_crate(name: &str) -> String {
    format!("{}/../../crates/{name}", env!("CARGO_MANIFEST_DIR"))
}

#[test]
fn check_commands_has_the_files() {
    let place = directory("check_commands_has_the_files");
    let path = |name: &str| place.join(name).to_str().unwrap().to_string();
    let file = |name: &str| of_crate(&format!("check_commands/data/{name}"));
    let bytes = |path: &str| std::fs::read(path).unwrap();
    let (image, data, disk, irq2, here) = (
        file("devices.imem"),
        file("devices.dmem"),
        file("devices.disk"),
        file("devices.irq2"),
        path(""),
    );
    let run = |more: &[&str]| {
        let mut arguments = vec!["run", &image, "--data", &data, "--disk", &disk];
        arguments.extend_from_slice(&["--irq2", &irq2, "--memories", &here]);
        arguments.extend_from_slice(more);
        assert_eq!(program(&arguments, "").1, 0);
    };
    let same = |ours: &str, theirs: &str| {
        assert!(bytes(&path(ours)) == bytes(&file(theirs)), "{theirs}");
    };
    program(
        &[
            "asm",
            &file("devices.asm"),
            &path("i"),
            &path("d"),
            "--short",
        ],
        "",
    );
    same("i", "devices.imem");
    same("d", "devices.dmem");
    program(&["asm", &file("mulmat.asm"), &path("i"), &path("d")], "");
    same("i", "mulmat.imem");
    same("d", "mulmat.dmem");

    let whole = [
        "dmemout.txt",
        "regout.txt",
        "trace.txt",
        "hwregtrace.txt",
        "cycles.txt",
        "leds.txt",
        "display7seg.txt",
        "diskout.txt",
        "monitor.txt",
        "monitor.yuv",
        "log.txt",
        "record.bin",
    ];
    run(&[]);
    for name in whole {
        same(name, &format!("expected/{name}"));
    }
    let picture = [b"P5\n256 256\n255\n".to_vec(), bytes(&path("monitor.yuv"))].concat();
    assert!(bytes(&file("expected/frame.pgm")) == picture);

    // in mid-sector; last term's record of there is busy
    run(&["--budget", "41"]);
    same("record.bin", "expected/record_41.bin");
    same("dmemout.txt", "expected/dmemout_41.txt");
    let mut record = read(&bytes(&path("record.bin"))).record;
    assert_eq!(
        (record.left, record.sector, record.buffer),
        (1000, 3, 0x200)
    );
    // last term the sector came at once, so that the lw met its word 1 and $t0 has it
    record.r[7 - 3] = 0x84068904;
    assert_eq!(bytes(&file("last_term_busy.bin")), edition_1(&record));

    // last term's record of a free disk, and the run that goes on from it
    run(&["--budget", "10"]);
    let record = read(&bytes(&path("record.bin"))).record;
    assert_eq!(bytes(&file("last_term.bin")), edition_1(&record));
    same("log.txt", "last_term.log");
    assert!(bytes(&file("last_term.dmem")) == bytes(&data));
    assert!(bytes(&file("last_term.disk")) == bytes(&disk));
    assert!(bytes(&file("last_term.frame")).is_empty());
    run(&["--record", &file("last_term.bin")]);
    for name in whole.iter().filter(|name| name.ends_with("out.txt")) {
        same(name, &format!("expected/{name}"));
    }
    same("monitor.txt", "expected/monitor.txt");
    same("record.bin", "expected/record.bin");
    let log = [bytes(&file("last_term.log")), bytes(&path("log.txt"))].concat();
    assert!(log == bytes(&file("expected/log.txt")));

    // the records that are refused
    for (name, number) in [
        ("short.bin", 1),
        ("long.bin", 1),
        ("length_92.bin", 1),
        ("edition.bin", 14),
        ("edition_1_94.bin", 14),
        ("edition_2_91.bin", 14),
        ("unsound.bin", 13),
        ("last_bits.bin", 13),
        ("last_term_busy.bin", 20),
    ] {
        let refusal = read(&bytes(&file(name))).refusal;
        assert_eq!(refusal.map(|no| no.number), Some(number), "{name}");
    }
}

#[test]
fn check_examples_has_the_output() {
    let mut expected = String::new();
    let folders = std::fs::read_to_string(of_crate("check_examples/args")).unwrap();
    for folder in folders.lines() {
        expected += &format!("= {folder}\n");
        let file = |name: &str| of_crate(&format!("check_examples/data/{folder}/{name}"));
        let mut arguments = vec!["run".to_string(), file("imemin.txt")];
        for (option, name) in [
            ("--data", "dmemin.txt"),
            ("--disk", "diskin.txt"),
            ("--irq2", "irq2in.txt"),
        ] {
            if std::path::Path::new(&file(name)).exists() {
                arguments.extend([option.to_string(), file(name)]);
            }
        }
        let arguments: Vec<&str> = arguments.iter().map(|word| word.as_str()).collect();
        expected += &program(&arguments, "").0;
    }
    let output = std::fs::read_to_string(of_crate("check_examples/stdout")).unwrap();
    assert!(output == expected);
}

#[test]
fn refused_and_misused() {
    let place = directory("refused_and_misused");
    let path = |name: &str| place.join(name).to_str().unwrap().to_string();
    std::fs::write(path("bad.asm"), "\nfoo\n").unwrap();
    let asm = ["asm", &path("bad.asm"), &path("never"), &path("never")];
    assert_eq!(program(&asm, ""), ("N 3 2\n".to_string(), 1));
    assert!(!place.join("never").exists());
    std::fs::write(path("bad"), "000000000000\n160000000000\n").unwrap();
    assert_eq!(
        program(&["list", &path("bad")], ""),
        ("N 16 1\n".to_string(), 1)
    );
    assert_eq!(
        program(&["run", &path("bad"), "--data", &path("bad")], ""),
        ("N 9 1\n".to_string(), 1)
    );
    std::fs::write(path("irq2"), "5\n5\n").unwrap();
    assert_eq!(
        program(&["run", &path("bad"), "--irq2", &path("irq2")], ""),
        ("N 12 2\n".to_string(), 1)
    );
    assert_eq!(program(&[], "").1, 2);
    assert_eq!(program(&["run"], "").1, 2);
    assert_eq!(program(&["run", &path("bad"), "--data"], "").1, 2);
    assert_eq!(program(&["run", &path("missing")], "").1, 2);
}
