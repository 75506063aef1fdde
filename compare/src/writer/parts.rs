//! Parts: 8 at all its edges, 9 behind it, and lengths so great that no sum may wrap.

use super::samples::{elements, junk, Sample, Sink};
use second::element::id;
use second::generator::raw;
use second::Chip;

/// Changes at the end of a part: none, a byte less, one more, two more.
const ENDS: [isize; 4] = [0, -1, 1, 2];

pub fn calls(chip: Chip, to: Sink) -> Result<(), String> {
    for sample in elements(chip) {
        short(&sample, to)?;
        long(&sample, to)?;
        match sample.id {
            id::CONTROLLER => speeds(&sample, to)?,
            id::TACHOMETER => registers(&sample, to)?,
            id::EXTERNAL_RGB => colours(&sample, to)?,
            id::TEXT => strings(&sample, to)?,
            _ => (),
        }
    }
    Ok(())
}

fn with(sample: &Sample, part: Vec<u8>, size: usize, to: Sink) -> Result<(), String> {
    let changed = Sample {
        part,
        ..sample.clone()
    };
    to(changed.call(junk(size, 16)))
}

/// Beside every kind: 0 to 70 bytes of one value, and its own part cut and continued.
fn short(sample: &Sample, to: Sink) -> Result<(), String> {
    for length in 0..=70 {
        for value in [0, 1, 2, 255] {
            with(sample, vec![value; length], 150, to)?;
        }
        let mut own = sample.part.clone();
        own.resize(length, 0);
        with(sample, own, 150, to)?;
    }
    Ok(())
}

/// Around 4,096 bytes, and around the end of a two-byte length.
fn lengths() -> impl Iterator<Item = usize> {
    (4_070..=4_100)
        .chain([65_500, 65_515, 65_516, 65_517, 65_520])
        .chain(65_530..=65_537)
        .chain([65_552, 70_000])
}

fn long(sample: &Sample, to: Sink) -> Result<(), String> {
    for length in lengths() {
        for value in [0, 1] {
            with(sample, vec![value; length], 4_200, to)?;
        }
    }
    Ok(())
}

/// Long strings in buffers with room for them and without; texts at the edges of rule 9, with room and without.
fn strings(sample: &Sample, to: Sink) -> Result<(), String> {
    const UNITS: [u16; 8] = [
        0x0041, 0xD7FF, 0xD800, 0xDBFF, 0xDC00, 0xDFFF, 0xE000, 0xFFFE,
    ];
    for one in UNITS {
        for two in UNITS {
            let text: Vec<u8> = [one, two].into_iter().flat_map(u16::to_le_bytes).collect();
            for end in 0..=text.len() {
                for number in [0, 1] {
                    let part = [&[number, 9, 4], &text[..end]].concat();
                    with(sample, part.clone(), 100, to)?;
                    with(sample, part, 16, to)?;
                }
            }
        }
    }
    // Any locale is good, and is none of the text.
    for locale in [0x0000u16, 0xD83D, 0xDE00] {
        for text in [&[][..], &[0x41, 0x00], &[0x00, 0xDE]] {
            let part = [&[1], &locale.to_le_bytes()[..], text].concat();
            with(sample, part, 100, to)?;
        }
    }
    for length in lengths() {
        for size in [16, 4_095, 4_096, 4_097, 65_535, 65_536, 70_000] {
            with(sample, vec![1; length], size, to)?;
        }
    }
    Ok(())
}

fn ended(mut part: Vec<u8>, end: isize) -> Vec<u8> {
    part.resize(part.len().saturating_add_signed(end), 0);
    part
}

/// 0 to 8 blocks; ENTRIES 0 in one of them or in all; ENTRIES of one block too small or too large.
fn speeds(sample: &Sample, to: Sink) -> Result<(), String> {
    for count in 0..=8 {
        for entries in [0, 1, 2, 3, 169, 170, 255] {
            for end in ENDS {
                let part = raw::block(7, entries).repeat(count);
                with(sample, ended(part, end), 4_200, to)?;
            }
        }
        for odd in 0..count {
            let start = odd * raw::block(7, 1).len();
            for entries in [0, 2, 3, 255] {
                let mut part = raw::block(7, 1).repeat(count);
                part[start + 1] = entries;
                with(sample, part, 200, to)?;
            }
            let blocks = (0..count).map(|at| raw::block(7, u8::from(at != odd)));
            with(sample, blocks.flatten().collect(), 200, to)?;
        }
    }
    Ok(())
}

fn registers(sample: &Sample, to: Sink) -> Result<(), String> {
    const COUNTS: [u8; 9] = [0, 1, 2, 63, 64, 127, 128, 254, 255];
    for first in COUNTS {
        for second in COUNTS {
            let own = raw::tachometer(1, 0, 0x40, first, second);
            for end in ENDS {
                with(sample, ended(own[12..].to_vec(), end), 2_200, to)?;
            }
            let mut more = own[12..].to_vec();
            more[0] = more[0].wrapping_add(1);
            with(sample, more, 2_200, to)?;
        }
    }
    Ok(())
}

/// Sums of three that pass 255, each with another end; each ENTRIES byte one more.
fn colours(sample: &Sample, to: Sink) -> Result<(), String> {
    const COUNTS: [u8; 5] = [0, 1, 64, 200, 255];
    for red in COUNTS {
        for green in COUNTS {
            for blue in COUNTS {
                let own = raw::external(1, 0, 0x40, [red, green, blue]);
                for end in ENDS {
                    with(sample, ended(own[12..].to_vec(), end), 3_200, to)?;
                }
            }
        }
    }
    for at in [0, 5, 6] {
        let mut more = raw::external(1, 0, 0x40, [1, 0, 2])[12..].to_vec();
        more[at] += 1;
        with(sample, more, 200, to)?;
    }
    Ok(())
}
