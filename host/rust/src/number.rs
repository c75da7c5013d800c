//! Numbers in bytes.

/// Adds a number to bytes: groups of seven bits, lowest first, the top bit set when another byte
/// follows. 1 to 5 bytes.
pub fn write_number(bytes: &mut Vec<u8>, number: u32) {
    let mut rest = number;
    while rest >= 128 {
        bytes.push((rest % 128) as u8 + 128);
        rest /= 128;
    }
    bytes.push(rest as u8);
}
