//! Writes the columns of a sheet.

pub fn put_decimal(value: u64, out: &mut Vec<u8>) {
    let mut digits = [0; 20];
    let mut at = digits.len();
    let mut rest = value;
    loop {
        at -= 1;
        digits[at] = b'0' + (rest % 10) as u8;
        rest /= 10;
        if rest == 0 {
            break;
        }
    }
    out.extend_from_slice(&digits[at..]);
}

pub fn put_signed(value: i64, out: &mut Vec<u8>) {
    if value < 0 {
        out.push(b'-');
    }
    put_decimal(value.unsigned_abs(), out);
}

pub fn put_hex(bytes: &[u8], out: &mut Vec<u8>) {
    const DIGITS: &[u8; 16] = b"0123456789abcdef";
    out.extend(bytes.iter().flat_map(|byte| [DIGITS[(byte >> 4) as usize], DIGITS[(byte & 15) as usize]]));
}

/// `~` for none, `-` for the empty text.
pub fn put_text(text: Option<&[u8]>, out: &mut Vec<u8>) {
    match text {
        None => out.push(b'~'),
        Some([]) => out.push(b'-'),
        Some(bytes) => put_hex(bytes, out),
    }
}
