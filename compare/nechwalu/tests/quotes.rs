//! Quotes through the safe call: figures and refusals that are written out here, and the
//! repository's examples.

#![cfg(feature = "proved")]

use nechwalu::{quote, read, Quote, LONGEST_VIEW};

/// Two labels, one record, and code; the header allots 1 step and 1 place.
fn file(code: &[u8]) -> Vec<u8> {
    let mut file = Vec::new();
    for number in [2, 16, 1, 21, code.len() as u16, 27, 1, 1] {
        file.extend(number.to_le_bytes());
    }
    file.extend([0, 0, 1, 0, 0]);
    file.extend([0, 0, 7, 0, 0, 0]);
    file.extend(code);
    file
}

fn quoted(steps: u32, places: u32) -> Result<Quote, u8> {
    Ok(Quote { steps, places })
}

#[test]
fn figures() {
    assert_eq!(quote(&file(&[0x00])), quoted(1, 0));
    // SEAL, NEW, END: what the header allots does not matter.
    assert_eq!(quote(&file(&[0x13, 0x16, 0x00])), quoted(3, 2));
    // IFZ over two SEALs and an END to four CURs: the figures are of two paths.
    assert_eq!(quote(&file(&[0x0B, 6, 0, 0x13, 0x13, 0, 0x0C, 0x0C, 0x0C, 0x0C, 0])), quoted(6, 2));
    // BLOCK that lends 65,535 steps and 255 places; its body is the END.
    assert_eq!(quote(&file(&[0x19, 6, 0, 255, 255, 255, 0])), quoted(65_537, 256));
}

#[test]
fn figures_past_16_bits() {
    let mut code = [0x19, 0xFC, 0x0F, 255, 255, 255].repeat(682);
    code.extend([0; 4]);
    assert_eq!(quote(&file(&code)), quoted(682 * 65_536 + 1, 682 * 256));
}

#[test]
fn refusals() {
    assert_eq!(quote(&[]), Err(1));
    assert_eq!(quote(&vec![0; 65_536]), Err(1));
    let right = file(&[0x0C, 0x00]);
    assert_eq!(quote(&right), quoted(2, 0));
    assert_eq!(quote(&right[..15]), Err(1));
    assert_eq!(quote(&right[..16]), Err(3));
    let with = |at: usize, byte: u8| {
        let mut file = right.clone();
        file[at] = byte;
        quote(&file).expect_err("a file that is not in order")
    };
    assert_eq!(with(0, 1), 2);
    assert_eq!(with(12, 0), 2);
    assert_eq!(with(2, 17), 3);
    assert_eq!(with(18, 2), 4);
    assert_eq!(with(21, 2), 6);
    assert_eq!(with(28, 0x05), 7);
    let mut above = right.clone();
    // Label 0 is everything secret and label 1 public.
    above[16..21].copy_from_slice(&[1, 0, 0, 0, 0]);
    assert_eq!(quote(&above), Err(5));
    // JUMP to itself, IFZ back, BLOCK back, and TRY behind an END.
    assert_eq!(quote(&file(&[0x0A, 0, 0])), Err(11));
    assert_eq!(quote(&file(&[0x0C, 0x0B, 0, 0, 0])), Err(11));
    assert_eq!(quote(&file(&[0x0C, 0x19, 0, 0, 1, 0, 0, 0])), Err(11));
    assert_eq!(quote(&file(&[0x00, 0x1A, 4, 0, 0x00])), Err(11));
    // And an unknown opcode behind it.
    assert_eq!(quote(&file(&[0x00, 0x1A, 4, 0, 0x00, 0x1E])), Err(7));
}

/// The examples are quoted as the reference quotes them, and no view tells of more.
#[test]
fn the_examples() {
    let examples: [&[u8]; 3] = [
        include_bytes!("../../../examples/compare_presets.script"),
        include_bytes!("../../../examples/crash_count.script"),
        include_bytes!("../../../examples/demo_set.script"),
    ];
    for file in examples {
        let right = reference::quote(file).map(|quote| Quote { steps: quote.steps, places: quote.places });
        assert_eq!(quote(file), right);
        let Ok(most) = right else { continue };
        let field = |view: &[u8], at: usize| u32::from(u16::from_le_bytes([view[at], view[at + 1]]));
        for reader in 0..usize::from(file[0]) {
            let mut view = [0; LONGEST_VIEW];
            read(file, reader, &mut view).expect("a valid file");
            assert!(field(&view, 2) <= most.steps);
            assert!(field(&view, 4) <= field(file, 4) + most.places);
        }
    }
}
