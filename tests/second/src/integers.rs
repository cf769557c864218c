//! "Integers": variable-length integers of RFC 9000, section 16.

/// 2^62-1, the highest value an integer holds.
pub const HIGHEST: u64 = (1 << 62) - 1;

pub const SIZES: [usize; 4] = [1, 2, 4, 8];

/// Value and size of the integer at `place`; nothing where the bytes end before it does.
pub fn read(bytes: &[u8], place: usize) -> Option<(u64, usize)> {
    let first = *bytes.get(place)?;
    let size = SIZES[usize::from(first >> 6)];
    let all = bytes.get(place..place + size)?;
    let with_size = all.iter().fold(0u64, |value, byte| value << 8 | u64::from(*byte));
    // The two size bits stand above the value.
    let value = with_size % (1 << (8 * size - 2));
    Some((value, size))
}

/// The shortest size that holds `value`, if one does.
pub fn size(value: u64) -> Option<usize> {
    SIZES.into_iter().find(|size| value < 1 << (8 * size - 2))
}

/// `value` in the shortest form; nothing above 2^62-1.
pub fn write(value: u64) -> Option<Vec<u8>> {
    size(value).map(|size| write_in(value, size))
}

/// `value` in a given size that holds it; clients may choose a longer one than needed.
pub fn write_in(value: u64, size: usize) -> Vec<u8> {
    let mut bytes = value.to_be_bytes()[8 - size..].to_vec();
    bytes[0] |= (size.trailing_zeros() as u8) << 6;
    bytes
}
