//! Memory files and the irq2 file, compared with the second implementation. Lent memory holds a pattern before each call.

use face::random::{turns, Random};
use face::{texts, Told};
use reference::files;

fn told(r: Result<usize, reference::Refusal>) -> Told {
    match r {
        Ok(count) => Told { number: 0, place: 0, count: count as u64 },
        Err(no) => Told { number: no.number, place: no.place as u64, count: 0 },
    }
}

fn length(r: &mut Random, right: usize) -> usize {
    if r.once_in(10) {
        [0, 1, right - 1, right + 1, 128][r.below(5) as usize]
    } else {
        right
    }
}

/// Reads a random file with both.
macro_rules! reads {
    ($name:ident, $call:ident, $word:ty, $digits:expr, $right:expr) => {
        #[test]
        fn $name() {
            turns(300, stringify!($name), |seed| {
                let r = &mut Random::new(seed);
                let right: usize = $right(r);
                let words = length(r, right);
                let text = texts::memory_file(r, $digits, right as u64);
                let (mut ours, mut theirs) = (vec![0xA5 as $word; words], vec![0xA5 as $word; words]);
                assert_eq!(face::$call(&text, &mut ours), told(files::$call(&text, &mut theirs).map(|()| 0)));
                assert!(ours == theirs, "the memories differ");
            });
        }
    };
}
reads!(images_read, read_image, u64, 12, |_: &mut Random| 4096);
reads!(data_read, read_data, u32, 8, |_: &mut Random| 4096);
reads!(disks_read, read_disk, u32, 8, |r: &mut Random| 128 * (1 + r.below(128)) as usize);
reads!(frames_read, read_frame, u8, 2, |_: &mut Random| 65536);

#[test]
fn irq2_read() {
    turns(20_000, "irq2_read", |seed| {
        let r = &mut Random::new(seed);
        let text = texts::irq2_file(r);
        let room = r.below(30) as usize;
        let (mut ours, mut theirs) = (vec![7; room], vec![7; room]);
        assert_eq!(face::read_irq2(&text, &mut ours), told(files::read_irq2(&text, &mut theirs)));
        assert_eq!(ours, theirs);
    });
}

fn room(r: &mut Random, text: usize) -> usize {
    match r.below(5) {
        0 => text.saturating_sub(1),
        1 => text + 9,
        2 => r.below(text as u64 + 1) as usize,
        _ => text,
    }
}

/// Writes a random memory with both, and reads it back.
macro_rules! writes {
    ($name:ident, $call:ident, $back:ident, $word:ty, $digits:expr, $words:expr, $bits:expr) => {
        #[test]
        fn $name() {
            turns(60, stringify!($name), |seed| {
                let r = &mut Random::new(seed);
                let words = length(r, $words);
                let memory: Vec<$word> = (0..words).map(|_| r.any(<$word>::BITS) as $word).collect();
                let n = room(r, ($digits + 1) * words);
                let (mut ours, mut theirs) = (vec![0xA5; n], vec![0xA5; n]);
                let told_ = face::$call(&memory, &mut ours);
                assert_eq!(told_, told(files::$call(&memory, &mut theirs)).count_only());
                assert!(ours == theirs, "the texts differ");
                if told_.number == 0 {
                    let mut back = vec![0xA5 as $word; words];
                    assert_eq!(face::$back(&ours[..told_.count as usize], &mut back).number, 0);
                    assert!(memory.iter().zip(&back).all(|(a, b)| *a as u64 & $bits == *b as u64), "it reads back otherwise");
                }
            });
        }
    };
}

trait CountOnly {
    fn count_only(self) -> Told;
}

impl CountOnly for Told {
    /// A writer's place is always 0.
    fn count_only(self) -> Told {
        assert_eq!(self.place, 0);
        self
    }
}
writes!(images_written, write_image, read_image, u64, 12, 4096, (1u64 << 48) - 1);
writes!(data_written, write_data, read_data, u32, 8, 4096, u64::MAX);
writes!(frames_written, write_frame, read_frame, u8, 2, 65536, u64::MAX);

#[test]
fn disks_written() {
    turns(60, "disks_written", |seed| {
        let r = &mut Random::new(seed);
        let words = length(r, 16384);
        let disk: Vec<u32> = (0..words).map(|_| r.any(32) as u32).collect();
        let most = if r.once_in(4) { 200 } else { 64 };
        let (first, sectors) = (r.below(most), r.below(most));
        let n = room(r, 9 * 128 * sectors as usize);
        let (mut ours, mut theirs) = (vec![0xA5; n], vec![0xA5; n]);
        let told_ = face::write_disk(&disk, first, sectors, &mut ours);
        assert_eq!(told_, told(files::write_disk(&disk, first as usize, sectors as usize, &mut theirs)));
        assert!(ours == theirs, "the texts differ");
    });
    let disk = vec![3; 16384];
    assert_eq!(face::write_disk(&disk, u64::MAX, 1, &mut [0; 9000]).number, 1);
    assert_eq!(face::write_disk(&disk, 1, u64::MAX, &mut [0; 9000]).number, 1);
}
