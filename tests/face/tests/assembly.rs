//! Assembling and listing, compared with the second implementation. Lent memory holds a pattern before each call.

use face::random::{turns, Random};
use face::{texts, Told};

fn told(r: Result<usize, reference::Refusal>) -> Told {
    match r {
        Ok(count) => Told { number: 0, place: 0, count: count as u64 },
        Err(no) => Told { number: no.number, place: no.place as u64, count: 0 },
    }
}

/// Both assemblers on one text; the number that they answer.
fn compare(source: &[u8], words: usize, data: usize) -> u32 {
    let (mut image, mut memory) = (vec![0xA5A5_A5A5_A5A5_A5A5; words], vec![0xA5A5_A5A5; data]);
    let (mut image2, mut memory2) = (image.clone(), memory.clone());
    let ours = face::assemble(source, &mut image, &mut memory);
    let theirs = told(reference::assembler::assemble(source, &mut image2, &mut memory2).map(|()| 0));
    let shown = String::from_utf8_lossy(&source[..source.len().min(2000)]);
    assert_eq!(ours, theirs, "of\n{shown}");
    assert!(image == image2 && memory == memory2, "the memories differ of\n{shown}");
    ours.number
}

#[test]
fn random_texts() {
    turns(20_000, "random_texts", |seed| {
        let r = &mut Random::new(seed);
        let source = texts::assembly(r, if seed % 50 == 0 { 600 } else { 25 });
        compare(&source, 4096, 4096);
    });
}

#[test]
fn wrong_lengths() {
    turns(200, "wrong_lengths", |seed| {
        let r = &mut Random::new(seed);
        let source = texts::assembly(r, 5);
        let length = |r: &mut Random| [4096, 0, 1, 4095, 4097][r.below(5) as usize];
        compare(&source, length(r), length(r));
    });
    compare(&vec![b'\n'; 262_144], 4096, 4096);
    compare(&vec![b'\n'; 262_145], 4096, 4096);
}

#[test]
fn limits() {
    // So many instructions and labels: the number with all labels in front, and that with the first at the end.
    for (instructions, labels, front, end) in [(4095, 1, 0, 0), (4096, 0, 7, 8), (4096, 1, 0, 8), (4097, 0, 7, 8), (10, 1024, 0, 0), (10, 1025, 8, 8), (4096, 1024, 0, 8)] {
        let mut text = String::new();
        for n in 0..labels {
            text += &format!("label{n}:\n");
        }
        for n in 0..instructions {
            text += &format!("add $t0,$t1,$t2,$s0,0x{:X},label{}\n", n % 4096, n % labels.max(1));
        }
        assert_eq!(compare(text.as_bytes(), 4096, 4096), front);
        assert_eq!(compare((text.replace("label0:\n", "") + "label0:\n.word 1 2\n# end").as_bytes(), 4096, 4096), end);
    }
}

#[test]
fn random_listings() {
    turns(5_000, "random_listings", |seed| {
        let r = &mut Random::new(seed);
        let count = if r.once_in(20) { 4090 + r.below(10) as usize } else { r.below(40) as usize };
        let mut words: Vec<u64> = (0..count).map(|_| r.below(22) << 40 | r.next() >> 24 | r.next() << 48).collect();
        for word in &mut words {
            if !r.once_in(400) {
                *word = *word & !(0xFF << 40) | r.below(22) << 40;
            }
        }
        let mut whole = vec![0; 46 * count];
        let length = reference::lister::list(&words, &mut whole).unwrap_or(0);
        let room = match r.below(4) {
            0 => length,
            1 => length.saturating_sub(1),
            2 => r.below(46 * count as u64 + 1) as usize,
            _ => 46 * count + 7,
        };
        let (mut text, mut text2) = (vec![0xA5; room], vec![0xA5; room]);
        let ours = face::list(&words, &mut text);
        assert_eq!(ours, told(reference::lister::list(&words, &mut text2)));
        assert!(text == text2, "the texts differ");
        // Listing and assembling gives the image back.
        if ours.number == 0 {
            let (mut image, mut memory) = (vec![1; 4096], vec![1; 4096]);
            assert_eq!(face::assemble(&text[..ours.count as usize], &mut image, &mut memory).number, 0);
            assert!(words.iter().zip(&image).all(|(a, b)| a & ((1 << 48) - 1) == *b) && image[count..].iter().all(|w| *w == 0) && memory.iter().all(|w| *w == 0));
        }
    });
}
