//! What is read and written.

use yasna::{construct_der, DERWriter, DERWriterSeq, Tag};

pub const INTEGERS: usize = 100_000;

pub const PAIRS: u32 = 20_000;

/// What a call returns that was rejected.
pub const REFUSED: u64 = u64::MAX;

/// A checksum with one more number in it.
pub fn mixed(checksum: u64, number: i64) -> u64 {
    checksum.rotate_left(5) ^ number as u64
}

/// The checksum of a pair.
pub fn pair_checksum(number: i64, flag: bool) -> u64 {
    mixed(u64::from(flag), number)
}

/// Data that lives as long as the program.
pub fn kept<T>(items: Vec<T>) -> &'static [T] {
    Box::leak(items.into_boxed_slice())
}

/// Numbers of one byte.
pub fn small_integers() -> &'static [i64] {
    kept((0..INTEGERS as i64).map(|place| place % 100).collect())
}

/// Numbers of one to eight bytes.
pub fn mixed_integers() -> &'static [i64] {
    let mut state = 0x9e37_79b9_7f4a_7c15_u64;
    let mut next = || {
        state = state
            .wrapping_mul(6_364_136_223_846_793_005)
            .wrapping_add(1_442_695_040_888_963_407);
        state
    };
    let numbers = (0..INTEGERS).map(|_| {
        let size = next() >> 58;
        (next() as i64) >> size
    });
    kept(numbers.collect())
}

/// A SEQUENCE of these numbers.
pub fn integer_list(numbers: &[i64]) -> &'static [u8] {
    kept(construct_der(|writer| {
        writer.write_sequence(|seq| {
            numbers
                .iter()
                .for_each(|number| seq.next().write_i64(*number))
        })
    }))
}

/// The same, with another tag on the last number.
pub fn broken_list(numbers: &[i64]) -> &'static [u8] {
    let mut bytes = integer_list(numbers).to_vec();
    let last = numbers.last().expect("there are numbers");
    let place = bytes.len() - construct_der(|writer| writer.write_i64(*last)).len();
    bytes[place] = 3;
    kept(bytes)
}

/// Writes the pairs of the numbers up to this one, and whether each is even.
pub fn write_pairs(seq: &mut DERWriterSeq, count: u32) {
    for number in 0..i64::from(count) {
        seq.next().write_sequence(|parts| {
            parts.next().write_i64(number);
            parts.next().write_bool(number % 2 == 0)
        })
    }
}

/// A SEQUENCE of these numbers, each under the implicit tag 1 inside the explicit tag 0.
pub fn tagged_list(numbers: &[i64]) -> &'static [u8] {
    kept(construct_der(|writer| {
        writer.write_sequence(|seq| {
            for number in numbers {
                seq.next().write_tagged(Tag::context(0), |inner| {
                    inner.write_tagged_implicit(Tag::context(1), |writer| writer.write_i64(*number))
                })
            }
        })
    }))
}

/// A SEQUENCE of so many pairs.
pub fn pair_list(count: u32) -> &'static [u8] {
    kept(construct_der(|writer| {
        writer.write_sequence(|seq| write_pairs(seq, count))
    }))
}

/// 1 MiB that is the contents of a number.
pub fn big_contents() -> &'static [u8] {
    kept((1..=1 << 20).map(|place: u32| (place * 7) as u8).collect())
}

/// Writes so many sequences around a number of these contents.
pub fn write_nest(writer: DERWriter, contents: &[u8], depth: usize) {
    match depth {
        0 => writer.write_bigint_bytes(contents, true),
        _ => writer.write_sequence(|seq| write_nest(seq.next(), contents, depth - 1)),
    }
}

/// A nest of the number 10.
pub fn nest(depth: usize) -> &'static [u8] {
    kept(construct_der(|writer| write_nest(writer, &[10], depth)))
}

/// The same, with indefinite lengths.
pub fn indefinite_nest(depth: usize) -> &'static [u8] {
    kept([[48, 128].repeat(depth), vec![2, 1, 10], vec![0; 2 * depth]].concat())
}
