//! Numbers in bytes: groups of seven bits, lowest first, in the shortest form.

use crate::Refused;

/// Draws numbers one after another from bytes.
pub struct Reader<'a> {
    bytes: &'a [u8],
    at: usize,
}

impl<'a> Reader<'a> {
    /// A reader at the first byte.
    pub fn new(bytes: &'a [u8]) -> Self {
        Reader { bytes, at: 0 }
    }

    /// Whether all bytes are drawn.
    #[inline]
    pub fn at_end(&self) -> bool {
        self.at == self.bytes.len()
    }

    /// The next number. 1: the bytes end before it does. 2: a fifth byte above 15, or a last
    /// byte 00 that isn't the only one.
    #[inline]
    pub fn number(&mut self) -> Result<u32, Refused> {
        match self.bytes.get(self.at) {
            None => Err(Refused(1)),
            Some(&byte) if byte < 128 => {
                self.at += 1;
                Ok(u32::from(byte))
            }
            Some(_) => self.longer(),
        }
    }

    /// A number whose first byte has the top bit set.
    fn longer(&mut self) -> Result<u32, Refused> {
        let mut value = u32::from(self.bytes[self.at] & 127);
        for place in 1..5 {
            let byte = *self.bytes.get(self.at + place).ok_or(Refused(1))?;
            if place == 4 && byte > 15 {
                return Err(Refused(2));
            }
            value |= u32::from(byte & 127) << (7 * place);
            if byte < 128 {
                if byte == 0 {
                    return Err(Refused(2));
                }
                self.at += place + 1;
                return Ok(value);
            }
        }
        unreachable!("a fifth byte is at most 15, so it is the last")
    }
}

/// The byte count of a number.
pub(crate) fn length(value: u32) -> usize {
    match value {
        0..=127 => 1,
        128..=16_383 => 2,
        16_384..=2_097_151 => 3,
        2_097_152..=268_435_455 => 4,
        _ => 5,
    }
}

/// Adds a number's bytes to a list.
pub fn write_number(bytes: &mut Vec<u8>, mut value: u32) {
    while value > 127 {
        bytes.push(value as u8 | 128);
        value >>= 7;
    }
    bytes.push(value as u8);
}

/// Puts a number's bytes into a buffer and gives what is left of it. The buffer has room.
pub(crate) fn put(buffer: &mut [u8], mut value: u32) -> &mut [u8] {
    let mut at = 0;
    while value > 127 {
        buffer[at] = value as u8 | 128;
        value >>= 7;
        at += 1;
    }
    buffer[at] = value as u8;
    &mut buffer[at + 1..]
}

#[cfg(test)]
mod tests {
    use super::*;

    #[test]
    fn shortest_form_and_no_other() {
        for value in [0u32, 1, 127, 128, 16_383, 16_384, 2_097_151, 2_097_152, 268_435_455] {
            for value in [value, value.wrapping_sub(1), value + 1, u32::MAX - value] {
                let mut bytes = Vec::new();
                write_number(&mut bytes, value);
                assert_eq!(bytes.len(), length(value));
                let mut buffer = [0xAA; 6];
                assert_eq!(put(&mut buffer, value).len(), 6 - bytes.len());
                assert_eq!(buffer[..bytes.len()], bytes);
                let mut reader = Reader::new(&bytes);
                assert_eq!(reader.number(), Ok(value));
                assert!(reader.at_end());
                for short in 0..bytes.len() {
                    assert_eq!(Reader::new(&bytes[..short]).number(), Err(Refused(1)));
                }
            }
        }
        let refused = |bytes: &[u8]| Reader::new(bytes).number();
        assert_eq!(refused(&[0x80, 0x00]), Err(Refused(2)));
        assert_eq!(refused(&[0xFF, 0xFF, 0xFF, 0xFF, 0x10]), Err(Refused(2)));
        assert_eq!(refused(&[0xFF, 0xFF, 0xFF, 0xFF, 0x80]), Err(Refused(2)));
        assert_eq!(refused(&[0xFF, 0xFF, 0xFF, 0xFF, 0x00]), Err(Refused(2)));
        assert_eq!(refused(&[0xFF, 0xFF, 0xFF, 0xFF]), Err(Refused(1)));
    }
}
