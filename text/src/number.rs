//! Numbers in bytes: groups of seven bits, highest first, top bit set on all but the last.

pub fn write(v: u64, out: &mut Vec<u8>) {
    let mut shift = 63;
    while shift > 0 && v >> shift == 0 {
        shift -= 7;
    }
    while shift > 0 {
        out.push(128 | (v >> shift & 127) as u8);
        shift -= 7;
    }
    out.push((v & 127) as u8);
}

/// The numbers of a byte string, of at most five bytes each. An error names the byte that does not end a shortest number.
pub fn read_all(bytes: &[u8]) -> Result<Vec<u64>, String> {
    let mut numbers = Vec::new();
    let mut at = 0;
    while at < bytes.len() {
        let start = at;
        let mut v: u64 = 0;
        loop {
            let Some(&b) = bytes.get(at) else {
                return Err(format!("byte {start}: the number is not whole"));
            };
            if at == start && b == 0x80 {
                return Err(format!(
                    "byte {start}: the number is not in its shortest form"
                ));
            }
            v = v << 7 | u64::from(b & 127);
            at += 1;
            if b < 0x80 {
                break;
            }
            if at - start == 5 {
                return Err(format!("byte {start}: the number has more than five bytes"));
            }
        }
        numbers.push(v);
    }
    Ok(numbers)
}
