//! Numbers as bytes, whole and damaged.

use super::rng::Rng;

/// A number in its shortest form.
fn write(bytes: &mut Vec<u8>, number: u32) {
    let mut rest = number;
    loop {
        let low = (rest & 127) as u8;
        rest >>= 7;
        if rest == 0 {
            bytes.push(low);
            return;
        }
        bytes.push(low | 128);
    }
}

/// Numbers in their shortest forms.
pub fn encode(numbers: &[u32]) -> Vec<u8> {
    let mut bytes = Vec::new();
    for &number in numbers {
        write(&mut bytes, number);
    }
    bytes
}

/// Numbers of which one is longer than it may be, or too great.
fn encode_with_a_bad_one(rng: &mut Rng, numbers: &[u32]) -> Vec<u8> {
    let bad = rng.below(numbers.len().max(1));
    let mut bytes = Vec::new();
    for (at, &number) in numbers.iter().enumerate() {
        write(&mut bytes, number);
        if at != bad {
            continue;
        }
        let last = bytes.len() - 1;
        if number >= 1 << 28 {
            // The fifth byte: too great, or with the top bit, or 00.
            bytes[last] = rng.pick(&[bytes[last] | 16, bytes[last] | 128, 0, 128, 255]);
        } else {
            let length = bytes.len();
            bytes[last] |= 128;
            bytes.extend(std::iter::repeat_n(128, rng.below(3)));
            bytes.push(0);
            if rng.once_in(8) {
                // Longer than five bytes.
                bytes.resize(length, 255);
                bytes.extend([255; 6]);
            }
        }
    }
    bytes
}

/// Bytes that are damaged somehow; now and then they are still whole.
pub fn damaged(rng: &mut Rng, numbers: &[u32]) -> Vec<u8> {
    let mut bytes = encode(numbers);
    match rng.below(6) {
        0 => bytes.truncate(rng.below(bytes.len() + 1)),
        1 => bytes.truncate(bytes.len().saturating_sub(1)),
        2 => (0..1 + rng.below(3)).for_each(|_| bytes.push(rng.next() as u8)),
        3 => bytes = encode_with_a_bad_one(rng, numbers),
        _ => {
            for _ in 0..1 + rng.below(3) {
                let at = rng.below(bytes.len().max(1));
                if let Some(byte) = bytes.get_mut(at) {
                    *byte = match rng.below(3) {
                        0 => rng.next() as u8,
                        1 => *byte ^ 128,
                        _ => byte.wrapping_add(1),
                    };
                }
            }
        }
    }
    bytes
}
