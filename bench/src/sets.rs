//! Cases of SET OF.

use crate::by_hand;
use crate::inputs::{self, kept, mixed, INTEGERS, REFUSED};
use crate::measure::Case;
use crate::measure::Contestant::{Asn1, ByHand, Port, Upstream};
use crate::port;
use std::hint::black_box;
use yasna::construct_der;

pub fn cases() -> Vec<Case> {
    let numbers = inputs::mixed_integers();
    let (few, some) = (&numbers[..1000], &numbers[..10_000]);
    vec![
        written("SET OF of 10k written", some, 5),
        value_written("a value with a SET OF of 10k written", some, 20),
        written("a part of a SET OF of 1k written", few, 50).by_parts(few.len()),
        written("a part of a SET OF of 100k written", numbers, 1).by_parts(INTEGERS),
        read("SET OF of 10k read", set(some), 10),
        read("a part of a SET OF of 1k read", set(few), 100).by_parts(few.len()),
        read("a part of a SET OF of 100k read", set(numbers), 1).by_parts(INTEGERS),
    ]
}

// A SET OF these numbers.
fn upstream_set(numbers: &[i64]) -> Vec<u8> {
    construct_der(|writer| {
        writer.write_set_of(|set| {
            for number in numbers {
                set.next().write_i64(*number);
            }
        })
    })
}

fn set(numbers: &[i64]) -> &'static [u8] {
    kept(upstream_set(numbers))
}

// How many bytes were written.
fn length(bytes: Vec<u8>) -> u64 {
    black_box(bytes).len() as u64
}

fn checksum(numbers: &[i64]) -> u64 {
    numbers
        .iter()
        .fold(0, |checksum, number| mixed(checksum, *number))
}

fn written(name: &'static str, numbers: &'static [i64], calls: usize) -> Case {
    Case::new(name, calls)
        .with(Port, move || port::write_set_of(black_box(numbers)))
        .with(Upstream, move || length(upstream_set(black_box(numbers))))
        .with(Asn1, move || {
            let written = asn1::write_single(&asn1::SetOfWriter::new(black_box(numbers)));
            length(written.expect("numbers can be written"))
        })
        .with(ByHand, move || {
            length(by_hand::write_set(black_box(numbers)))
        })
}

// A SEQUENCE of a SET OF these numbers.
fn upstream_value(numbers: &[i64]) -> Vec<u8> {
    construct_der(|writer| {
        writer.write_sequence(|seq| {
            seq.next().write_set_of(|set| {
                for number in numbers {
                    set.next().write_i64(*number);
                }
            })
        })
    })
}

// The same SEQUENCE in BER, whose SET OF isn't in order.
fn unordered_value(numbers: &[i64]) -> Vec<u8> {
    let mut contents = Vec::new();
    for number in numbers {
        by_hand::write_integer(&mut contents, *number);
    }
    by_hand::enclosed(48, &by_hand::enclosed(49, &contents))
}

// A value is read once and written so many times, here as its type's notation.
fn value_written(name: &'static str, numbers: &'static [i64], times: u64) -> Case {
    let bytes = kept(unordered_value(numbers));
    let sum =
        move |write: &dyn Fn() -> Vec<u8>| (0..black_box(times)).map(|_| length(write())).sum();
    Case::new(name, 1)
        .by_parts(times as usize)
        .with(Port, move || {
            port::write_set_values(black_box(bytes), black_box(times))
        })
        .with(Upstream, move || {
            sum(&|| upstream_value(black_box(numbers)))
        })
        .with(Asn1, move || {
            sum(&|| {
                let written = asn1::write(|writer| {
                    writer.write_element(&asn1::SequenceWriter::new(&|parts| {
                        parts.write_element(&asn1::SetOfWriter::new(black_box(numbers)))
                    }))
                });
                written.expect("numbers can be written")
            })
        })
        .with(ByHand, move || {
            sum(&|| by_hand::enclosed(48, &by_hand::write_set(black_box(numbers))))
        })
}

fn read(name: &'static str, bytes: &'static [u8], calls: usize) -> Case {
    Case::new(name, calls)
        .with(Port, move || port::read_set_of(black_box(bytes), true))
        .with(Upstream, move || {
            let read = yasna::parse_der(black_box(bytes), |reader| {
                reader.collect_set_of(|part| part.read_i64())
            });
            read.map_or(REFUSED, |numbers| checksum(&numbers))
        })
        .with(Asn1, move || {
            let read = asn1::parse_single::<asn1::SetOf<i64>>(black_box(bytes));
            read.map_or(REFUSED, |numbers| checksum(&numbers.collect::<Vec<_>>()))
        })
        .with(ByHand, move || {
            by_hand::list_set(black_box(bytes)).map_or(REFUSED, |numbers| checksum(&numbers))
        })
}
