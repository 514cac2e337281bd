//! Formats that were not written to be sound.

use random::{Random, PARTS};

/// Bytes of no shape, with tildes in some of them.
pub fn shapeless(random: &Random) -> Vec<u8> {
    let tildes = random.once_in(2);
    let byte = |_| match random.below(4) {
        0 if tildes => b'~',
        _ => random.byte(),
    };
    (0..random.below(40)).map(byte).collect()
}

/// A byte changed, one taken out, a piece of a directive put in, or the end cut off.
pub fn damage(random: &Random, text: &mut Vec<u8>) {
    let at = random.below(text.len() + 1);
    match random.below(6) {
        0 if at < text.len() => text[at] = random.byte(),
        1 if at < text.len() => text[at] ^= 1 << random.below(8),
        2 if at < text.len() => {
            text.remove(at);
        }
        3 => text.truncate(at),
        _ => {
            text.splice(at..at, random.pick(PARTS).bytes());
        }
    }
}

/// Literal bytes up to about the greatest length, or well beyond it.
pub fn lengthen(random: &Random, text: &mut Vec<u8>) {
    let length = random.pick(&[4095, 4096, 4097, 4097, 4098, 6000]);
    let filler = vec![b'x'; length - text.len().min(length)];
    let at = random.pick(&[0, text.len()]);
    text.splice(at..at, filler);
}
