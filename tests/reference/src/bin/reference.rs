//! The reference as a program. It ends with 0, with 1 where a text was refused (after a line
//! `N number line`), or with 2 where it could not start (usage, files).
//!
//! reference simlog < INSTRUCTIONS
//! reference run IMAGE [--data F] [--disk F] [--irq2 F] [--record F] [--budget N] [--memories DIR]
//! reference asm SOURCE IMAGE DATA [--short]
//! reference list IMAGE
//!
//! `run` prints the log and the E line (budget 100,000 where none is given); it starts from the
//! fresh record, or from the saved one that `--record` names. With `--memories` it then writes into
//! DIR the ten files of the course paper's simulator (dmemout.txt regout.txt trace.txt
//! hwregtrace.txt cycles.txt leds.txt display7seg.txt diskout.txt monitor.txt monitor.yuv), the
//! saved record as record.bin and the log as log.txt. `asm --short` leaves out the zero lines at the
//! end of its two files. `list` lists as many words as the file has lines.

use reference::assembler::assemble;
use reference::files::*;
use reference::lister::list;
use reference::record::{read, save, Record};
use reference::run::{run, LOG_FULL};
use reference::simlog::{line_e, line_n, simlog, SIMLOG_BUDGET};
use reference::text::lines;
use reference::*;
use std::io::{Read, Write};
use std::path::Path;
use std::process::ExitCode;

/// Why the program ends early.
enum End {
    Refused(Refusal),
    CouldNot(String),
}

impl From<Refusal> for End {
    fn from(refusal: Refusal) -> End {
        End::Refused(refusal)
    }
}

const USAGE: &str = "usage: reference simlog < INSTRUCTIONS
       reference run IMAGE [--data F] [--disk F] [--irq2 F] [--record F] [--budget N]
                     [--memories DIR]
       reference asm SOURCE IMAGE DATA [--short]
       reference list IMAGE";

fn usage() -> End {
    End::CouldNot(USAGE.to_string())
}

fn load(path: &str) -> Result<Vec<u8>, End> {
    std::fs::read(path).map_err(|error| End::CouldNot(format!("{path}: {error}")))
}

fn store(path: &Path, bytes: &[u8]) -> Result<(), End> {
    std::fs::write(path, bytes)
        .map_err(|error| End::CouldNot(format!("{}: {error}", path.display())))
}

fn print(bytes: &[u8]) -> Result<(), End> {
    std::io::stdout()
        .write_all(bytes)
        .map_err(|error| End::CouldNot(format!("standard output: {error}")))
}

/// A memory file's text: `writer` fills a room that is always large enough.
fn text_from(
    room: usize,
    writer: impl Fn(&mut [u8]) -> Result<usize, Refusal>,
) -> Result<Vec<u8>, Refusal> {
    let mut text = vec![0; room];
    let length = writer(&mut text)?;
    text.truncate(length);
    Ok(text)
}

/// The text without the zero lines at its end ("missing lines are zero").
fn short(text: Vec<u8>) -> Vec<u8> {
    let mut kept = lines(&text);
    while let Some(last) = kept.last() {
        if last.iter().any(|byte| *byte != b'0') {
            break;
        }
        kept.pop();
    }
    let mut result = Vec::new();
    for line in kept {
        result.extend_from_slice(line);
        result.push(b'\n');
    }
    result
}

fn command_simlog() -> Result<(), End> {
    let mut input = Vec::new();
    std::io::stdin()
        .read_to_end(&mut input)
        .map_err(|error| End::CouldNot(format!("standard input: {error}")))?;
    print(&simlog(&input))
}

fn command_run(arguments: &[String]) -> Result<(), End> {
    let (image_path, options) = arguments.split_first().ok_or_else(usage)?;
    let mut image = vec![0; IMAGE_WORDS];
    let mut data = vec![0; DATA_WORDS];
    let mut disk = vec![0; DISK_WORDS];
    let mut frame = vec![0; FRAME_BYTES];
    let mut irq2 = Vec::new();
    let mut record = Record::fresh();
    let mut budget = SIMLOG_BUDGET;
    let mut memories = None;

    read_image(&load(image_path)?, &mut image)?;
    for option in options.chunks(2) {
        let [name, value] = option else {
            return Err(usage());
        };
        match name.as_str() {
            "--data" => read_data(&load(value)?, &mut data)?,
            "--disk" => read_disk(&load(value)?, &mut disk)?,
            "--irq2" => {
                let text = load(value)?;
                irq2 = vec![0; lines(&text).len()];
                read_irq2(&text, &mut irq2)?;
            }
            "--record" => {
                let answer = read(&load(value)?);
                answer.refusal.map_or(Ok(()), Err)?;
                record = answer.record;
            }
            "--budget" => budget = value.parse().map_err(|_| usage())?,
            "--memories" => memories = Some(value),
            _ => return Err(usage()),
        }
    }

    // Runs with a room of 1 MiB for the log, as many as are needed.
    let mut log = vec![0; 1 << 20];
    let mut whole_log = Vec::new();
    loop {
        let answer = run(
            &record, &image, &mut data, &mut disk, &mut frame, &irq2, budget, &mut log,
        );
        if let Some(refusal) = answer.refusal {
            return Err(End::Refused(refusal));
        }
        print(&log[..answer.log_bytes])?;
        if memories.is_some() {
            whole_log.extend_from_slice(&log[..answer.log_bytes]);
        }
        record = answer.record;
        budget -= answer.cycles;
        if answer.reason != LOG_FULL {
            break;
        }
    }
    print(line_e(&record).as_bytes())?;

    if let Some(directory) = memories {
        let directory = Path::new(directory);
        let text = text_from(DATA_WORDS * 9, |text| write_data(&data, text))?;
        store(&directory.join("dmemout.txt"), &text)?;
        let text = text_from(DISK_WORDS * 9, |text| {
            write_disk(&disk, 0, DISK_SECTORS, text)
        })?;
        store(&directory.join("diskout.txt"), &text)?;
        let text = text_from(FRAME_BYTES * 3, |text| write_frame(&frame, text))?;
        store(&directory.join("monitor.txt"), &text)?;
        store(&directory.join("monitor.yuv"), &frame)?;
        store_log(directory, &whole_log)?;
        store_record(directory, &record)?;
    }
    Ok(())
}

/// The log, and "a line of text" of each kind in a file of its own, without the log's letter.
fn store_log(directory: &Path, log: &[u8]) -> Result<(), End> {
    store(&directory.join("log.txt"), log)?;
    for (letter, file) in [
        ("T ", "trace.txt"),
        ("H ", "hwregtrace.txt"),
        ("L ", "leds.txt"),
        ("D ", "display7seg.txt"),
    ] {
        let text: String = String::from_utf8_lossy(log)
            .lines()
            .filter_map(|line| line.strip_prefix(letter))
            .map(|line| format!("{line}\n"))
            .collect();
        store(&directory.join(file), text.as_bytes())?;
    }
    Ok(())
}

/// "the values of the registers R3-R15", "the number of clock cycles", and the saved record.
fn store_record(directory: &Path, record: &Record) -> Result<(), End> {
    let registers: String = record
        .r
        .iter()
        .map(|value| format!("{value:08X}\n"))
        .collect();
    store(&directory.join("regout.txt"), registers.as_bytes())?;
    let cycles = format!("{}\n", record.age);
    store(&directory.join("cycles.txt"), cycles.as_bytes())?;
    let mut bytes = vec![0; RECORD_BYTES];
    save(record, &mut bytes)?;
    store(&directory.join("record.bin"), &bytes)
}

fn command_asm(arguments: &[String]) -> Result<(), End> {
    let (source, image_path, data_path, is_short) = match arguments {
        [source, image, data] => (source, image, data, false),
        [source, image, data, option] if option == "--short" => (source, image, data, true),
        _ => return Err(usage()),
    };
    let mut image = vec![0; IMAGE_WORDS];
    let mut data = vec![0; DATA_WORDS];
    assemble(&load(source)?, &mut image, &mut data)?;
    let mut image_text = text_from(IMAGE_WORDS * 13, |text| write_image(&image, text))?;
    let mut data_text = text_from(DATA_WORDS * 9, |text| write_data(&data, text))?;
    if is_short {
        image_text = short(image_text);
        data_text = short(data_text);
    }
    store(Path::new(image_path), &image_text)?;
    store(Path::new(data_path), &data_text)
}

fn command_list(arguments: &[String]) -> Result<(), End> {
    let [image_path] = arguments else {
        return Err(usage());
    };
    let text = load(image_path)?;
    let mut image = vec![0; IMAGE_WORDS];
    read_image(&text, &mut image)?;
    // No listed line is longer than 60 bytes.
    let part = &image[..lines(&text).len()];
    print(&text_from(part.len() * 60, |text| list(part, text))?)
}

fn main() -> ExitCode {
    let arguments: Vec<String> = std::env::args().skip(1).collect();
    let end = match arguments.split_first() {
        Some((name, [])) if name == "simlog" => command_simlog(),
        Some((name, rest)) if name == "run" => command_run(rest),
        Some((name, rest)) if name == "asm" => command_asm(rest),
        Some((name, rest)) if name == "list" => command_list(rest),
        _ => Err(usage()),
    };
    match end {
        Ok(()) => ExitCode::SUCCESS,
        Err(End::Refused(refusal)) => {
            let _ = print(line_n(refusal).as_bytes());
            ExitCode::from(1)
        }
        Err(End::CouldNot(why)) => {
            eprintln!("{why}");
            ExitCode::from(2)
        }
    }
}
