//! The constants and variables that a call draws from: constants of 16 bits, as in files of the old form, or of 24, small ones beside large ones.

use crate::random::Random;
use crate::tables::CONSTANT_BITS;
use crate::terms::{Term, Term::*, VARIABLES};

/// Constants with all bytes but one in common, or with the same bytes in another order: whoever leaves out one of the three bytes, or takes it for another
/// one, takes some of them for others.
const ALIKE: [[u32; 3]; 12] = [
    // All but the top byte.
    [0x00_0000, 0x01_0000, 0xFF_0000],
    [0x00_0001, 0x01_0001, 0x02_0001],
    [0x00_FFFF, 0x01_FFFF, 0xFF_FFFF],
    // All but the high byte.
    [0x01_0000, 0x01_0100, 0x01_FF00],
    [0x80_0001, 0x80_0201, 0x80_8001],
    // All but the low byte.
    [0x01_0000, 0x01_0001, 0x01_00FF],
    [0xFF_FF00, 0xFF_FFFE, 0xFF_FFFF],
    // In another order.
    [0x00_0001, 0x00_0100, 0x01_0000],
    [0x01_0203, 0x02_0103, 0x03_0201],
    // The last of 16 bits, the first of 17, and the last of all.
    [0x00_FFFF, 0x01_0000, 0xFF_FFFF],
    // In order, while their low 16 bits go down.
    [0x00_0002, 0x01_0001, 0x02_0000],
    [0x00_FFFF, 0x01_8000, 0xFF_0000],
];

/// Few of each, so that equal ones are common.
pub struct Palette {
    pub constants: Vec<u32>,
    pub variables: Vec<usize>,
}

pub fn palette(random: &mut Random) -> Palette {
    let mut constants = match random.below(20) {
        0 => vec![0, 255, 256, 65_535],
        1 => vec![any(random, 16), any(random, 16)],
        2 => vec![1],
        3..=10 => vec![0, 1, 2],
        11..=16 => random.pick(&ALIKE).to_vec(),
        17 => vec![1, any(random, 16), any(random, CONSTANT_BITS)],
        _ => {
            let first = any(random, CONSTANT_BITS);
            vec![first, near(random, first, CONSTANT_BITS), near(random, first, CONSTANT_BITS)]
        }
    };
    if random.chance(50) {
        while constants.len() > 2 {
            constants.remove(random.below(constants.len()));
        }
    }
    let count = random.pick(&[1, 1, 2, 2, 2, 3, 3, 4, VARIABLES]);
    let mut variables: Vec<usize> = (0..VARIABLES).collect();
    while variables.len() > count {
        variables.remove(random.below(variables.len()));
    }
    Palette { constants, variables }
}

pub fn constant(random: &mut Random, palette: &Palette) -> Term {
    Constant(random.pick(&palette.constants))
}

impl Palette {
    /// The bits of constants that stand beside those of the palette: beside 16 bits 16, so that many calls stay of the old form.
    pub fn bits(&self) -> u32 {
        if self.constants.iter().all(|constant| *constant < 1 << 16) {
            16
        } else {
            CONSTANT_BITS
        }
    }

    /// The same with many constants, so that few parts of a long recipe are equal: each equal part doubles the steps of the lister. Half of them are nearly
    /// others.
    pub fn varied(&self, random: &mut Random) -> Palette {
        let mut constants = Vec::new();
        while constants.len() < 40 {
            constants.push(any(random, self.bits()));
            let other = random.pick(&constants);
            constants.push(near(random, other, self.bits()));
        }
        Palette { constants, variables: self.variables.clone() }
    }
}

fn any(random: &mut Random, bits: u32) -> u32 {
    random.below(1 << bits) as u32
}

/// Another constant, with one other byte.
pub fn near(random: &mut Random, constant: u32, bits: u32) -> u32 {
    let byte = if bits == 16 { random.below(2) } else { random.pick(&[0, 1, 2, 2]) };
    constant ^ (random.between(1, 255) as u32) << (8 * byte)
}
