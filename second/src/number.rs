//! Numbers in groups of seven bits, low group first, the high bit set on all groups but the last.

use crate::refusal::{Refusal, Reply};

const MORE: u8 = 0x80;
const FIFTH_MOST: u8 = 15;

/// Reads the number that begins at `place`; gives it and the place after it.
#[inline]
pub fn read_number(file: &[u8], place: usize) -> Result<(u32, usize), Refusal> {
    match file.get(place) {
        Some(&byte) if byte < MORE => Ok((u32::from(byte), place + 1)),
        Some(_) => read_groups(file, place),
        None => Err(Reply::EndsEarly.at(place)),
    }
}

/// Reads a number of two groups or more.
fn read_groups(file: &[u8], place: usize) -> Result<(u32, usize), Refusal> {
    let mut value = 0;
    for group in 0..4 {
        let Some(&byte) = file.get(place + group) else {
            return Err(Reply::EndsEarly.at(place));
        };
        value |= u32::from(byte & !MORE) << (7 * group);
        if byte < MORE {
            return last_group(byte, value, place, group);
        }
    }
    match file.get(place + 4) {
        Some(&byte) if byte <= FIFTH_MOST => {
            last_group(byte, value | u32::from(byte) << 28, place, 4)
        }
        Some(_) => Err(Reply::Malformed.at(place)),
        None => Err(Reply::EndsEarly.at(place)),
    }
}

/// Ends a number of two groups or more with its last group, which may not be zero.
fn last_group(byte: u8, value: u32, place: usize, group: usize) -> Result<(u32, usize), Refusal> {
    if byte == 0 {
        return Err(Reply::Malformed.at(place));
    }
    Ok((value, place + group + 1))
}

/// The number of groups that `value` takes.
pub fn encoded_length(value: u32) -> usize {
    let bits = u32::BITS - (value | 1).leading_zeros();
    bits.div_ceil(7) as usize
}

/// Writes `value` at `place` and gives the place after it.
#[inline]
pub fn write_number(mut value: u32, out: &mut [u8], mut place: usize) -> usize {
    while value >= u32::from(MORE) {
        out[place] = value as u8 | MORE;
        value >>= 7;
        place += 1;
    }
    out[place] = value as u8;
    place + 1
}

#[cfg(test)]
mod tests {
    use super::*;

    fn reply(file: &[u8]) -> Refusal {
        read_number(file, 0).unwrap_err()
    }

    #[test]
    fn numbers_of_the_rules() {
        assert_eq!(read_number(&[0x7F], 0), Ok((127, 1)));
        assert_eq!(read_number(&[0x80, 0x01], 0), Ok((128, 2)));
        assert_eq!(
            read_number(&[0xFF, 0xFF, 0xFF, 0xFF, 0x0F], 0),
            Ok((u32::MAX, 5))
        );
        assert_eq!(reply(&[0x80, 0x00]), Reply::Malformed.at(0));
        assert_eq!(
            reply(&[0xFF, 0xFF, 0xFF, 0xFF, 0x10]),
            Reply::Malformed.at(0)
        );
        assert_eq!(reply(&[0x80]), Reply::EndsEarly.at(0));
        assert_eq!(reply(&[]), Reply::EndsEarly.at(0));
    }

    #[test]
    fn fifth_group() {
        assert_eq!(reply(&[0x80, 0x80, 0x80, 0x80]), Reply::EndsEarly.at(0));
        assert_eq!(
            reply(&[0x80, 0x80, 0x80, 0x80, 0x00]),
            Reply::Malformed.at(0)
        );
        assert_eq!(
            reply(&[0x80, 0x80, 0x80, 0x80, 0x80]),
            Reply::Malformed.at(0)
        );
        assert_eq!(
            read_number(&[0x80, 0x80, 0x80, 0x80, 0x01], 0),
            Ok((1 << 28, 5))
        );
    }

    #[test]
    fn written_numbers_are_read_back() {
        for bit in 0..32 {
            for value in [(1u32 << bit) - 1, 1 << bit, u32::MAX >> bit] {
                let mut out = [0; 5];
                let after = write_number(value, &mut out, 0);
                assert_eq!(after, encoded_length(value));
                assert_eq!(read_number(&out[..after], 0), Ok((value, after)));
            }
        }
    }
}
