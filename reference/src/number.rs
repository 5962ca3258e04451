//! Numbers as bytes (01, Bytes: "A number is groups of seven bits").

/// The largest number of a model; for tape and trace the rules say it.
pub const MAX_NUMBER: u64 = 4_294_967_295;

/// The most bytes such a number has.
pub const MAX_NUMBER_BYTES: usize = 5;

/// Reads the number that starts at `position`; gives it with the position
/// after it. `None`: it is not whole, not in its shortest form or above `most`.
pub fn read_number(bytes: &[u8], position: usize, most: u64) -> Option<(u64, usize)> {
    let mut value: u64 = 0;
    for length in 0..MAX_NUMBER_BYTES {
        let byte = *bytes.get(position + length)?;
        if length == 0 && byte == 0x80 {
            return None; // a leading group of zero bits: not the shortest form
        }
        value = value * 128 + u64::from(byte & 0x7F);
        if byte < 0x80 {
            if value > most {
                return None;
            }
            return Some((value, position + length + 1));
        }
    }
    None // five bytes with the top bit set: more than 5 bytes
}

/// The shortest form of a number. Report numbers may have up to 9 bytes.
pub fn number_bytes(value: u64) -> Vec<u8> {
    let mut bytes = vec![(value % 128) as u8];
    let mut rest = value / 128;
    while rest > 0 {
        bytes.insert(0, 0x80 | (rest % 128) as u8);
        rest /= 128;
    }
    bytes
}
