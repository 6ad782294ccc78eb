//! How answers are printed. Text goes into one growing byte string.

pub type Text = Vec<u8>;

const DIGITS: &[u8; 16] = b"0123456789abcdef";

/// Any NaN is printed as this one.
const NAN: u32 = 0x7fc0_0000;

pub fn put(out: &mut Text, text: &str) {
    out.extend_from_slice(text.as_bytes());
}

/// ` n`
pub fn number(out: &mut Text, n: u32) {
    let mut digits = [0; 10];
    let mut left = n;
    let mut at = digits.len();
    loop {
        at -= 1;
        digits[at] = b'0' + (left % 10) as u8;
        left /= 10;
        if left == 0 {
            break;
        }
    }
    out.push(b' ');
    out.extend_from_slice(&digits[at..]);
}

pub fn hex(out: &mut Text, word: u32) {
    for place in (0..8).rev() {
        out.push(DIGITS[(word >> (4 * place) & 15) as usize]);
    }
}

/// The bits of an f32 as they are shown.
pub fn bits(x: f32) -> u32 {
    if x.is_nan() {
        NAN
    } else {
        x.to_bits()
    }
}

/// ` w` for each
pub fn floats(out: &mut Text, values: &[f32]) {
    for &x in values {
        out.push(b' ');
        hex(out, bits(x));
    }
}

/// `NAME n n ..`
pub fn line(out: &mut Text, name: &str, numbers: &[u32]) {
    put(out, name);
    for &n in numbers {
        number(out, n);
    }
    out.push(b'\n');
}

/// `NAME n n .. w w ..`
pub fn mixed(out: &mut Text, name: &str, numbers: &[u32], values: &[f32]) {
    put(out, name);
    for &n in numbers {
        number(out, n);
    }
    floats(out, values);
    out.push(b'\n');
}

/// A triangle's line.
pub fn triangle(out: &mut Text, values: &[f32; 51]) {
    hex(out, bits(values[0]));
    floats(out, &values[1..]);
    out.push(b'\n');
}

/// 32-bit FNV-1a.
pub fn hash(bytes: &[u8]) -> u32 {
    bytes.iter().fold(0x811c_9dc5, |h, &b| (h ^ b as u32).wrapping_mul(0x0100_0193))
}

pub fn stop(out: &mut Text, record: usize, reason: &str) {
    put(out, &format!("error: record {record}: {reason}\n"));
}
