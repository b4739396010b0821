//! The file numbers: big-endian, signed ones two's complement, doubles by their bits.

/// The number in `width` bytes at a place, the highest byte first; none where they are not all there.
fn number(bytes: &[u8], at: usize, width: usize) -> Option<u64> {
    let part = bytes.get(at..at.checked_add(width)?)?;
    Some(part.iter().fold(0, |n, &byte| n * 256 + u64::from(byte)))
}

pub fn u8_at(bytes: &[u8], at: usize) -> Option<u8> {
    number(bytes, at, 1).map(|n| n as u8)
}

pub fn u16_at(bytes: &[u8], at: usize) -> Option<u16> {
    number(bytes, at, 2).map(|n| n as u16)
}

pub fn u32_at(bytes: &[u8], at: usize) -> Option<u32> {
    number(bytes, at, 4).map(|n| n as u32)
}

pub fn u64_at(bytes: &[u8], at: usize) -> Option<u64> {
    number(bytes, at, 8)
}

pub fn i32_at(bytes: &[u8], at: usize) -> Option<i32> {
    u32_at(bytes, at).map(|n| n as i32)
}

pub fn f64_at(bytes: &[u8], at: usize) -> Option<f64> {
    u64_at(bytes, at).map(f64::from_bits)
}

/// The low `width` bytes of a number, the highest first, after what is written already.
fn put(out: &mut Vec<u8>, n: u64, width: u32) {
    out.extend((0..width).rev().map(|place| (n >> (8 * place)) as u8));
}

pub fn put_u8(out: &mut Vec<u8>, n: u8) {
    put(out, n.into(), 1);
}

pub fn put_u16(out: &mut Vec<u8>, n: u16) {
    put(out, n.into(), 2);
}

pub fn put_u32(out: &mut Vec<u8>, n: u32) {
    put(out, n.into(), 4);
}

pub fn put_u64(out: &mut Vec<u8>, n: u64) {
    put(out, n, 8);
}

pub fn put_i32(out: &mut Vec<u8>, n: i32) {
    put_u32(out, n as u32);
}

pub fn put_f64(out: &mut Vec<u8>, r: f64) {
    put_u64(out, r.to_bits());
}

#[cfg(test)]
mod tests {
    use super::*;

    #[test]
    fn the_highest_byte_comes_first() {
        let mut out = Vec::new();
        put_u8(&mut out, 0x11);
        put_u16(&mut out, 0x0025);
        put_i32(&mut out, -2);
        put_f64(&mut out, -1.0);
        put_u64(&mut out, 3_600_000);
        put_u32(&mut out, 1);
        let written: String = out.iter().map(|byte| format!("{byte:02X}")).collect();
        assert_eq!(written, "110025FFFFFFFEBFF0000000000000000000000036EE8000000001");
        assert_eq!(u8_at(&out, 0), Some(0x11));
        assert_eq!(u16_at(&out, 1), Some(0x25));
        assert_eq!(i32_at(&out, 3), Some(-2));
        assert_eq!(f64_at(&out, 7), Some(-1.0));
        assert_eq!(u64_at(&out, 15), Some(3_600_000));
        assert_eq!(u32_at(&out, 23), Some(1));
    }

    #[test]
    fn a_number_that_is_not_all_there_is_none() {
        assert_eq!(u32_at(&[0; 4], 0), Some(0));
        assert_eq!(u32_at(&[0; 4], 1), None);
        assert_eq!(u8_at(&[], 0), None);
        assert_eq!(u8_at(&[0], usize::MAX), None);
    }
}
