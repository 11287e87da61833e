//! Ways to spoil the bytes of a call or its chip bytes without knowing their fields.

use crate::random::Random;
use builder::Built;

/// One way.
#[derive(Clone, Copy, Debug, PartialEq, Eq)]
pub enum Mutation {
    CutCall,
    CutChip,
    LengthenCall,
    LengthenChip,
    FlipCall,
    FlipChip,
    FlipMac,
    OtherMethod,
    OtherHandle,
    TooLong,
    Noise,
    NoiseInChip,
}

/// All of them.
pub const MUTATIONS: [Mutation; 12] = [
    Mutation::CutCall,
    Mutation::CutChip,
    Mutation::LengthenCall,
    Mutation::LengthenChip,
    Mutation::FlipCall,
    Mutation::FlipChip,
    Mutation::FlipMac,
    Mutation::OtherMethod,
    Mutation::OtherHandle,
    Mutation::TooLong,
    Mutation::Noise,
    Mutation::NoiseInChip,
];

/// Spoils a call.
pub fn mutate(built: &mut Built, how: Mutation, random: &mut Random) {
    match how {
        Mutation::CutCall => cut(&mut built.call, random),
        Mutation::CutChip => cut(&mut built.chip, random),
        Mutation::LengthenCall => lengthen(&mut built.call, random),
        Mutation::LengthenChip => lengthen(&mut built.chip, random),
        Mutation::FlipCall => flip(&mut built.call, 0, random),
        Mutation::FlipChip => flip(&mut built.chip, 0, random),
        Mutation::FlipMac => {
            let start = built.call.len().saturating_sub(32);
            flip(&mut built.call, start, random);
        }
        Mutation::OtherMethod => {
            if let Some(method) = built.call.first_mut() {
                *method = random.pick(&[2, 3, 5, 8, 9, 10, 12, 50, 51, 80, 82, 83, 100]);
            }
        }
        Mutation::OtherHandle => {
            if built.call.len() >= 5 {
                built.call[1 + random.below(4)] = random.pick(&[0, 1, 2, 3, 255]);
            }
        }
        // Just over the longest call, or just at it.
        Mutation::TooLong => built.call.resize(16_384 + random.below(2), 0),
        Mutation::Noise => {
            let (call, chip) = (random.below(80), random.below(40));
            *built = Built { call: random.bytes(call), chip: random.bytes(chip) };
        }
        // Often as many bytes as were there.
        Mutation::NoiseInChip => {
            let length = if random.percent(50) { built.chip.len() } else { random.below(80) };
            built.chip = random.bytes(length);
        }
    }
}

/// Mostly one byte less; now and then any shorter part.
fn cut(bytes: &mut Vec<u8>, random: &mut Random) {
    let length = if random.percent(50) { bytes.len().saturating_sub(1) } else { random.below(bytes.len().max(1)) };
    bytes.truncate(length);
}

/// Mostly one byte more.
fn lengthen(bytes: &mut Vec<u8>, random: &mut Random) {
    let more = if random.percent(70) { 1 } else { random.between(2, 40) };
    bytes.extend(random.bytes(more));
}

/// One bit of one byte from that place on.
fn flip(bytes: &mut [u8], start: usize, random: &mut Random) {
    if start < bytes.len() {
        let place = random.between(start, bytes.len() - 1);
        bytes[place] ^= 1 << random.below(8);
    }
}
