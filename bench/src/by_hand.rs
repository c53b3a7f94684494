//! Loops written for the one type that they read or write: how fast it can be.

use crate::inputs::{mixed, pair_checksum};
use std::hint::black_box;

// The contents in front that a length counts, and what follows them.
fn counted(bytes: &[u8]) -> Option<(&[u8], &[u8])> {
    let (&short, mut rest) = bytes.split_first()?;
    let mut length = usize::from(short);
    if short >= 128 {
        let (digits, others) = rest.split_at_checked(usize::from(short & 127))?;
        if digits.is_empty() || digits.len() > 8 || digits[0] == 0 {
            return None;
        }
        length = digits
            .iter()
            .fold(0, |length, digit| length << 8 | usize::from(*digit));
        if length < 128 {
            return None;
        }
        rest = others;
    }
    rest.split_at_checked(length)
}

// What follows a tag number of 31 or more, of 64 bits at most.
fn behind_long_tag(bytes: &[u8]) -> Option<&[u8]> {
    let end = bytes.iter().position(|digit| *digit < 128)?;
    let (digits, rest) = bytes.split_at(end + 1);
    let number = digits.iter().try_fold(0_u64, |number, digit| {
        (number >> 57 == 0).then_some(number << 7 | u64::from(digit & 127))
    })?;
    (digits[0] != 128 && number >= 31).then_some(rest)
}

/// Bytes of DER that are left.
pub struct Bytes<'a>(pub &'a [u8]);

impl<'a> Bytes<'a> {
    // The contents of an element with this identifier.
    fn element(&mut self, identifier: u8) -> Option<&'a [u8]> {
        let (&first, rest) = self.0.split_first()?;
        if first != identifier {
            return None;
        }
        let (contents, others) = counted(rest)?;
        self.0 = others;
        Some(contents)
    }

    // Passes an element that has so many levels, itself among them: of any tag but that of the end of contents, and
    // where it is constructed with elements in it, to its end.
    fn pass(&mut self, levels: usize) -> Option<()> {
        let levels = levels.checked_sub(1)?;
        let (&first, mut rest) = self.0.split_first()?;
        if first & 31 == 31 {
            rest = behind_long_tag(rest)?;
        } else if first & !32 == 0 {
            return None;
        }
        let (contents, others) = counted(rest)?;
        self.0 = others;
        if first & 32 != 0 {
            let mut parts = Bytes(contents);
            while !parts.0.is_empty() {
                parts.pass(levels)?;
            }
        }
        Some(())
    }

    // The bytes of such an element.
    fn raw(&mut self, levels: usize) -> Option<&'a [u8]> {
        let all = self.0;
        self.pass(levels)?;
        Some(&all[..all.len() - self.0.len()])
    }

    pub fn integer(&mut self) -> Option<i64> {
        let contents = self.element(2)?;
        let minimal = match contents {
            [0, second, ..] => *second >= 128,
            [255, second, ..] => *second < 128,
            _ => true,
        };
        let (&first, others) = contents.split_first()?;
        if !minimal || others.len() > 7 {
            return None;
        }
        Some(others.iter().fold(i64::from(first as i8), |number, byte| {
            number << 8 | i64::from(*byte)
        }))
    }

    fn boolean(&mut self) -> Option<bool> {
        match self.element(1)? {
            [0] => Some(false),
            [255] => Some(true),
            _ => None,
        }
    }

    // What a reading of the contents of a SEQUENCE returns, which takes all of them.
    pub fn sequence<T>(&mut self, read: impl FnOnce(&mut Bytes<'a>) -> Option<T>) -> Option<T> {
        self.enclosed(48, read)
    }

    // The same of any constructed element.
    fn enclosed<T>(
        &mut self,
        identifier: u8,
        read: impl FnOnce(&mut Bytes<'a>) -> Option<T>,
    ) -> Option<T> {
        let mut contents = Bytes(self.element(identifier)?);
        let value = read(&mut contents)?;
        contents.0.is_empty().then_some(value)
    }

    pub fn pair(&mut self) -> Option<u64> {
        self.sequence(|parts| Some(pair_checksum(parts.integer()?, parts.boolean()?)))
    }
}

/// The checksum of a SEQUENCE of numbers.
pub fn read_integers(bytes: &[u8]) -> Option<u64> {
    Bytes(bytes).sequence(|seq| {
        let mut checksum = 0;
        while !seq.0.is_empty() {
            checksum = mixed(checksum, seq.integer()?);
        }
        Some(checksum)
    })
}

/// A SEQUENCE of numbers.
pub fn list_integers(bytes: &[u8]) -> Option<Vec<i64>> {
    Bytes(bytes).sequence(|seq| {
        let mut numbers = Vec::new();
        while !seq.0.is_empty() {
            numbers.push(seq.integer()?);
        }
        Some(numbers)
    })
}

/// A SET OF numbers, in the order of their bytes.
pub fn list_set(bytes: &[u8]) -> Option<Vec<i64>> {
    Bytes(bytes).enclosed(49, |set| {
        let mut numbers = Vec::new();
        let mut last: &[u8] = &[];
        while !set.0.is_empty() {
            let all = set.0;
            numbers.push(set.integer()?);
            let part = &all[..all.len() - set.0.len()];
            if part < last {
                return None;
            }
            last = part;
        }
        Some(numbers)
    })
}

/// The checksum of the lengths of a SEQUENCE's elements, each copied as a whole.
pub fn read_raw(bytes: &[u8]) -> Option<u64> {
    Bytes(bytes).sequence(|seq| {
        let mut checksum = 0;
        while !seq.0.is_empty() {
            let element = black_box(seq.raw(100)?.to_vec());
            checksum = mixed(checksum, element.len() as i64);
        }
        Some(checksum)
    })
}

/// The checksum of a SEQUENCE of pairs.
pub fn read_pairs(bytes: &[u8]) -> Option<u64> {
    Bytes(bytes).sequence(|seq| {
        let mut checksum = 0;
        while !seq.0.is_empty() {
            checksum = mixed(checksum, seq.pair()? as i64);
        }
        Some(checksum)
    })
}

/// Appends a number.
pub fn write_integer(bytes: &mut Vec<u8>, number: i64) {
    let all = number.to_be_bytes();
    let spare = if number < 0 {
        number.leading_ones()
    } else {
        number.leading_zeros()
    };
    let contents = &all[((spare - 1) / 8) as usize..];
    bytes.extend([2, contents.len() as u8]);
    bytes.extend_from_slice(contents);
}

/// Appends a pair.
pub fn write_pair(bytes: &mut Vec<u8>, number: i64, flag: bool) {
    let place = bytes.len();
    bytes.extend([48, 0]);
    write_integer(bytes, number);
    bytes.extend([1, 1, if flag { 255 } else { 0 }]);
    bytes[place + 1] = (bytes.len() - place - 2) as u8;
}

/// Appends a pair of numbers.
pub fn write_numbers(bytes: &mut Vec<u8>, first: i64, second: i64) {
    let place = bytes.len();
    bytes.extend([48, 0]);
    write_integer(bytes, first);
    write_integer(bytes, second);
    bytes[place + 1] = (bytes.len() - place - 2) as u8;
}

/// Appends a pair in CER.
pub fn write_pair_cer(bytes: &mut Vec<u8>, number: i64, flag: bool) {
    bytes.extend([48, 128]);
    write_integer(bytes, number);
    bytes.extend([1, 1, if flag { 255 } else { 0 }, 0, 0]);
}

/// A SET OF these numbers.
pub fn write_set(numbers: &[i64]) -> Vec<u8> {
    let mut bytes = Vec::new();
    let mut ends = vec![0];
    for number in numbers {
        write_integer(&mut bytes, *number);
        ends.push(bytes.len());
    }
    let mut parts: Vec<&[u8]> = ends.windows(2).map(|end| &bytes[end[0]..end[1]]).collect();
    parts.sort_unstable();
    enclosed(49, &parts.concat())
}

/// A constructed element of these contents.
pub fn enclosed(identifier: u8, contents: &[u8]) -> Vec<u8> {
    let mut bytes = vec![identifier];
    if contents.len() < 128 {
        bytes.push(contents.len() as u8);
    } else {
        let all = contents.len().to_be_bytes();
        let digits = &all[(contents.len().leading_zeros() / 8) as usize..];
        bytes.push(128 | digits.len() as u8);
        bytes.extend_from_slice(digits);
    }
    bytes.extend_from_slice(contents);
    bytes
}
