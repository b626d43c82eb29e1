//! Safe functions over the lab's C face (include/simp.h). Each lends slices and gives what the call told.

pub mod hex_texts;
pub mod random;
pub mod texts;

/// What a call told: document 01's number (0: accepted), the place and the count.
#[derive(Clone, Copy, Debug, PartialEq, Eq)]
pub struct Told {
    pub number: u32,
    pub place: u64,
    pub count: u64,
}

/// A record as 40 numbers in the saved order: status, flag, PC, age, left, sector, buffer, R3 to R15, the I/O registers of `RECORD_IO`.
pub type Numbers = [u64; 40];

/// What stands in places and counts before a call, so that one that is not written is seen.
const UNWRITTEN: u64 = 0x5A5A_5A5A_5A5A_5A5A;

mod c {
    extern "C" {
        pub fn simp_read_image(text: *const u8, n: usize, image: *mut u64, words: usize, place: *mut u64) -> u32;
        pub fn simp_read_data(text: *const u8, n: usize, memory: *mut u32, words: usize, place: *mut u64) -> u32;
        pub fn simp_read_disk(text: *const u8, n: usize, part: *mut u32, words: usize, place: *mut u64) -> u32;
        pub fn simp_read_frame(text: *const u8, n: usize, frame: *mut u8, bytes: usize, place: *mut u64) -> u32;
        pub fn simp_read_irq2(text: *const u8, n: usize, cycles: *mut u64, room: usize, count: *mut u64, place: *mut u64) -> u32;
        pub fn simp_write_image(image: *const u64, words: usize, text: *mut u8, n: usize, count: *mut u64) -> u32;
        pub fn simp_write_data(memory: *const u32, words: usize, text: *mut u8, n: usize, count: *mut u64) -> u32;
        pub fn simp_write_disk(disk: *const u32, words: usize, first: u64, sectors: u64, text: *mut u8, n: usize, count: *mut u64) -> u32;
        pub fn simp_write_frame(frame: *const u8, bytes: usize, text: *mut u8, n: usize, count: *mut u64) -> u32;
        pub fn simp_read_hex_data(text: *const u8, n: usize, memory: *mut u32, words: usize, place: *mut u64) -> u32;
        pub fn simp_read_hex_disk(text: *const u8, n: usize, disk: *mut u32, words: usize, place: *mut u64) -> u32;
        pub fn simp_write_hex_data(memory: *const u32, words: usize, text: *mut u8, n: usize, count: *mut u64) -> u32;
        pub fn simp_write_hex_disk(disk: *const u32, words: usize, text: *mut u8, n: usize, count: *mut u64) -> u32;
        pub fn simp_assemble(source: *const u8, n: usize, image: *mut u64, words: usize, memory: *mut u32, data: usize, place: *mut u64) -> u32;
        pub fn simp_list(words: *const u64, n: usize, text: *mut u8, room: usize, count: *mut u64, place: *mut u64) -> u32;
        pub fn simp_save(record: *const u64, numbers: usize, bytes: *mut u8, n: usize) -> u32;
        pub fn simp_load(bytes: *const u8, n: usize, record: *mut u64, numbers: usize) -> u32;
        #[allow(clippy::too_many_arguments)]
        pub fn simp_run(
            record: *mut u64, numbers: usize, image: *const u64, words: usize, memory: *mut u32, data: usize, disk: *mut u32, disk_words: usize,
            frame: *mut u8, frame_bytes: usize, irq2: *const u64, cycles: usize, budget: u64, log: *mut u8, room: usize, report: *mut u64, reports: usize,
        ) -> u32;
    }
}

/// A reader of a memory file.
macro_rules! reader {
    ($name:ident, $call:ident, $word:ty) => {
        pub fn $name(text: &[u8], words: &mut [$word]) -> Told {
            let mut place = UNWRITTEN;
            let number = unsafe { c::$call(text.as_ptr(), text.len(), words.as_mut_ptr(), words.len(), &mut place) };
            Told { number, place, count: 0 }
        }
    };
}
reader!(read_image, simp_read_image, u64);
reader!(read_data, simp_read_data, u32);
reader!(read_disk, simp_read_disk, u32);
reader!(read_frame, simp_read_frame, u8);
reader!(read_hex_data, simp_read_hex_data, u32);
reader!(read_hex_disk, simp_read_hex_disk, u32);

pub fn read_irq2(text: &[u8], cycles: &mut [u64]) -> Told {
    let (mut count, mut place) = (UNWRITTEN, UNWRITTEN);
    let number = unsafe { c::simp_read_irq2(text.as_ptr(), text.len(), cycles.as_mut_ptr(), cycles.len(), &mut count, &mut place) };
    Told { number, place, count }
}

/// A writer of a memory file.
macro_rules! writer {
    ($name:ident, $call:ident, $word:ty) => {
        pub fn $name(words: &[$word], text: &mut [u8]) -> Told {
            let mut count = UNWRITTEN;
            let number = unsafe { c::$call(words.as_ptr(), words.len(), text.as_mut_ptr(), text.len(), &mut count) };
            Told { number, place: 0, count }
        }
    };
}
writer!(write_image, simp_write_image, u64);
writer!(write_data, simp_write_data, u32);
writer!(write_frame, simp_write_frame, u8);
writer!(write_hex_data, simp_write_hex_data, u32);
writer!(write_hex_disk, simp_write_hex_disk, u32);

pub fn write_disk(disk: &[u32], first: u64, sectors: u64, text: &mut [u8]) -> Told {
    let mut count = UNWRITTEN;
    let number = unsafe { c::simp_write_disk(disk.as_ptr(), disk.len(), first, sectors, text.as_mut_ptr(), text.len(), &mut count) };
    Told { number, place: 0, count }
}

pub fn assemble(source: &[u8], image: &mut [u64], memory: &mut [u32]) -> Told {
    let mut place = UNWRITTEN;
    let number = unsafe { c::simp_assemble(source.as_ptr(), source.len(), image.as_mut_ptr(), image.len(), memory.as_mut_ptr(), memory.len(), &mut place) };
    Told { number, place, count: 0 }
}

pub fn list(words: &[u64], text: &mut [u8]) -> Told {
    let (mut count, mut place) = (UNWRITTEN, UNWRITTEN);
    let number = unsafe { c::simp_list(words.as_ptr(), words.len(), text.as_mut_ptr(), text.len(), &mut count, &mut place) };
    Told { number, place, count }
}

pub fn save(record: &[u64], bytes: &mut [u8]) -> u32 {
    unsafe { c::simp_save(record.as_ptr(), record.len(), bytes.as_mut_ptr(), bytes.len()) }
}

pub fn load(bytes: &[u8], record: &mut [u64]) -> u32 {
    unsafe { c::simp_load(bytes.as_ptr(), bytes.len(), record.as_mut_ptr(), record.len()) }
}

/// What a run is lent.
#[derive(Clone, Debug, PartialEq, Eq)]
pub struct Lent {
    pub record: Vec<u64>,
    pub image: Vec<u64>,
    pub memory: Vec<u32>,
    pub disk: Vec<u32>,
    pub frame: Vec<u8>,
    pub log: Vec<u8>,
    pub report: Vec<u64>,
}

pub fn run(lent: &mut Lent, irq2: &[u64], budget: u64) -> u32 {
    unsafe {
        c::simp_run(
            lent.record.as_mut_ptr(), lent.record.len(), lent.image.as_ptr(), lent.image.len(), lent.memory.as_mut_ptr(), lent.memory.len(),
            lent.disk.as_mut_ptr(), lent.disk.len(), lent.frame.as_mut_ptr(), lent.frame.len(), irq2.as_ptr(), irq2.len(), budget,
            lent.log.as_mut_ptr(), lent.log.len(), lent.report.as_mut_ptr(), lent.report.len(),
        )
    }
}

/// The place of R3 among a record's numbers, and of I/O register 0.
pub const R3: usize = 7;
pub const IO_0: usize = 20;

/// The I/O numbers of a record's numbers.
pub const RECORD_IO: [usize; 20] = [0, 1, 2, 3, 4, 5, 6, 7, 8, 9, 10, 11, 12, 13, 14, 15, 16, 17, 20, 21];

/// A record as numbers, ..
pub fn numbers_of(r: &reference::record::Record) -> Numbers {
    let mut n = [0; 40];
    n[..R3].copy_from_slice(&[r.status as u64, r.flag as u64, r.pc as u64, r.age, r.left as u64, r.sector as u64, r.buffer as u64]);
    for i in 0..13 {
        n[R3 + i] = r.r[i] as u64;
    }
    for (i, io) in RECORD_IO.iter().enumerate() {
        n[IO_0 + i] = r.io[*io] as u64;
    }
    n
}

/// .. and numbers as a record, where they fit its fields' types.
pub fn record_of(n: &[u64]) -> Option<reference::record::Record> {
    let mut r = reference::record::Record::fresh();
    let narrow = |x: u64| u32::try_from(x).ok();
    r.status = narrow(n[0])?;
    r.flag = narrow(n[1])?;
    r.pc = narrow(n[2])?;
    r.age = n[3];
    r.left = narrow(n[4])?;
    r.sector = narrow(n[5])?;
    r.buffer = narrow(n[6])?;
    for i in 0..13 {
        r.r[i] = narrow(n[R3 + i])?;
    }
    for (i, io) in RECORD_IO.iter().enumerate() {
        r.io[*io] = narrow(n[IO_0 + i])?;
    }
    Some(r)
}
