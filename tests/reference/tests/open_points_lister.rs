//! The open points L1 to L3.

mod common;
use common::*;
use reference::lister::list;

fn listed(part: &[u64]) -> Result<String, (u32, usize)> {
    let mut text = vec![b'?'; part.len() * 60];
    let length = pair(list(part, &mut text))?;
    assert!(text[length..].iter().all(|byte| *byte == b'?'));
    Ok(String::from_utf8(text[..length].to_vec()).unwrap())
}

#[test]
fn l1_the_line() {
    assert_eq!(
        listed(&[0x018122002003]).unwrap(),
        "sub $t1, $imm1, $imm2, $imm2, 2, 3\n"
    );
    assert_eq!(
        listed(&[0x150000000000, 0x0AFEDC7FF800, 0x003456FFF001]).unwrap(),
        "halt $zero, $zero, $zero, $zero, 0, 0\n\
         bne $ra, $sp, $gp, $s2, 2047, -2048\n\
         add $v0, $a0, $a1, $a2, -1, 1\n"
    );
}

#[test]
fn l2_place_and_empty_part() {
    assert_eq!(listed(&[]).unwrap(), "");
    let image = [0x160000000000, 0, 0, 0xFF0000000000, 0x160000000000];
    assert_eq!(listed(&image[1..]), Err((16, 2)));
    assert_eq!(listed(&image), Err((16, 0)));
    // an empty part needs no room
    assert_eq!(list(&[], &mut []), Ok(0));
}

#[test]
fn l3_order_room_and_high_bits() {
    let line = "add $zero, $zero, $zero, $zero, 0, 0\n";
    let mut text = vec![b'?'; line.len() * 2 + 1];
    assert_eq!(list(&[0, 0], &mut text), Ok(line.len() * 2));
    assert_eq!(text, format!("{line}{line}?").into_bytes());
    let mut text = vec![b'?'; line.len() * 2];
    assert_eq!(list(&[0, 0], &mut text), Ok(line.len() * 2));
    let mut text = vec![b'?'; line.len() * 2 - 1];
    assert_eq!(pair(list(&[0, 0], &mut text)), Err((15, 0)));
    assert!(text.iter().all(|byte| *byte == b'?'));
    // 16 before 15, 1 before 16
    assert_eq!(pair(list(&[0, 0x160000000000], &mut [])), Err((16, 1)));
    assert_eq!(
        pair(list(&vec![0x160000000000; 4097], &mut [])),
        Err((1, 0))
    );
    assert_eq!(listed(&vec![0; 4096]).unwrap(), line.repeat(4096));
    // bits above 47 are not read
    assert_eq!(listed(&[0xFFFF_0000_0000_0000]).unwrap(), line);
}

#[test]
fn a_listing_assembles_to_the_same_image() {
    let mut numbers = Numbers(7);
    let mut image = vec![0; 4096];
    for word in image.iter_mut() {
        *word = numbers.below(22) << 40 | numbers.below(1 << 40);
    }
    let text = listed(&image).unwrap();
    assert_eq!(assembled(text.as_bytes()).unwrap().0, image);
}
