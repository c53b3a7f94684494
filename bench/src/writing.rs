//! Cases that write.

use crate::by_hand;
use crate::inputs::{self, kept, PAIRS};
use crate::measure::Case;
use crate::measure::Contestant::{Asn1, Bcder, ByHand, Port, Upstream};
use crate::port;
use asn1::{SequenceOfWriter, SequenceWriter};
use bcder::encode::{self, PrimitiveContent, Values};
use std::hint::black_box;
use yasna::{construct_der, encode_der, DERWriterSeq};

// A pair as a type of `asn1`.
#[derive(asn1::Asn1Write)]
struct Parts(u64, u32);

pub fn cases() -> Vec<Case> {
    vec![
        pair(),
        integers("write 100k small integers", inputs::small_integers()),
        integers("write 100k mixed integers", inputs::mixed_integers()),
        pairs(),
        pairs_cer(),
        pair_values("20k pairs as a value written", PAIRS, 100),
        pair_values("a million pairs as a value written", 1_000_000, 20),
        nested_pairs("20k pairs inside 100 sequences", 100),
        nest("1 MiB in 50 sequences", inputs::big_contents(), 50, 2),
        nest("a level at depth 1", kept(vec![10]), 1, 20_000),
        nest("a level at depth 10", kept(vec![10]), 10, 2000).by_parts(10),
        nest("a level at depth 100", kept(vec![10]), 100, 200).by_parts(100),
        nest("a level at depth 5000", kept(vec![10]), 5000, 4).by_parts(5000),
    ]
}

// How many bytes were written.
fn length(bytes: Vec<u8>) -> u64 {
    black_box(bytes).len() as u64
}

// What bcder writes.
fn bcder_length(values: impl Values, mode: bcder::Mode) -> u64 {
    let mut bytes = Vec::new();
    values
        .write_encoded(mode, &mut bytes)
        .expect("a vector takes all bytes");
    length(bytes)
}

// How many bytes bcder writes of the pairs.
fn bcder_pairs(mode: bcder::Mode) -> u64 {
    let numbers: Vec<i64> = (0..i64::from(black_box(PAIRS))).collect();
    let pairs = encode::slice(&numbers[..], |number: &i64| {
        encode::sequence(((*number).encode(), (*number % 2 == 0).encode()))
    });
    bcder_length(encode::sequence(pairs), mode)
}

fn pair() -> Case {
    Case::new("encode a pair", 100_000)
        .with(Port, || port::encode_pair(black_box(10), black_box(true)))
        .with(Upstream, || length(encode_der(&black_box((10_i64, true)))))
        .with(Asn1, || {
            let (number, flag) = black_box((10_i64, true));
            let written = asn1::write(|writer| {
                writer.write_element(&SequenceWriter::new(&|parts| {
                    parts.write_element(&number)?;
                    parts.write_element(&flag)
                }))
            });
            length(written.expect("a pair can be written"))
        })
        .with(Bcder, || {
            let (number, flag) = black_box((10_i64, true));
            let pair = encode::sequence((number.encode(), flag.encode()));
            bcder_length(pair, bcder::Mode::Der)
        })
        .with(ByHand, || {
            let (number, flag) = black_box((10, true));
            let mut bytes = Vec::new();
            by_hand::write_pair(&mut bytes, number, flag);
            length(bytes)
        })
}

fn integers(name: &'static str, numbers: &'static [i64]) -> Case {
    Case::new(name, 3)
        .with(Port, move || port::write_integers(black_box(numbers)))
        .with(Upstream, move || {
            length(construct_der(|writer| {
                writer.write_sequence(|seq| {
                    for number in black_box(numbers) {
                        seq.next().write_i64(*number);
                    }
                })
            }))
        })
        .with(Asn1, move || {
            let written = asn1::write_single(&SequenceOfWriter::new(black_box(numbers)));
            length(written.expect("numbers can be written"))
        })
        .with(Bcder, move || {
            let parts = encode::slice(black_box(numbers), |number: &i64| (*number).encode());
            bcder_length(encode::sequence(parts), bcder::Mode::Der)
        })
        .with(ByHand, move || {
            let mut contents = Vec::new();
            for number in black_box(numbers) {
                by_hand::write_integer(&mut contents, *number);
            }
            length(by_hand::enclosed(48, &contents))
        })
}

fn pairs() -> Case {
    nested_pairs("write 20k pairs", 0)
        .with(Asn1, || {
            let written = asn1::write(|writer| {
                writer.write_element(&SequenceWriter::new(&|seq| {
                    (0..i64::from(black_box(PAIRS))).try_for_each(|number| {
                        seq.write_element(&SequenceWriter::new(&|parts| {
                            parts.write_element(&number)?;
                            parts.write_element(&(number % 2 == 0))
                        }))
                    })
                }))
            });
            length(written.expect("pairs can be written"))
        })
        .with(Bcder, || bcder_pairs(bcder::Mode::Der))
        .with(ByHand, || {
            let mut contents = Vec::new();
            for number in 0..i64::from(black_box(PAIRS)) {
                by_hand::write_pair(&mut contents, number, number % 2 == 0);
            }
            length(by_hand::enclosed(48, &contents))
        })
}

// Pairs that are read once, and written so many times as a whole.
fn pair_values(name: &'static str, count: u32, times: u64) -> Case {
    let numbers = 0..u64::from(count);
    let pairs: Vec<(u64, u16)> = numbers.map(|number| (number, (number % 2) as u16)).collect();
    let pairs = kept(pairs);
    let sum =
        move |write: &dyn Fn() -> Vec<u8>| (0..black_box(times)).map(|_| length(write())).sum();
    let list = pairs.to_vec();
    let bytes = kept(encode_der(&list));
    let parts = kept(
        pairs
            .iter()
            .map(|(first, second)| Parts(*first, u32::from(*second)))
            .collect(),
    );
    Case::new(name, 1)
        .by_parts(times as usize)
        .with(Port, move || {
            port::write_pair_values(black_box(bytes), black_box(times))
        })
        .with(Upstream, move || sum(&|| encode_der(black_box(&list))))
        .with(Asn1, move || {
            sum(&|| {
                let written = asn1::write_single(&SequenceOfWriter::new(black_box(parts)));
                written.expect("pairs can be written")
            })
        })
        .with(ByHand, move || {
            sum(&|| {
                let mut contents = Vec::new();
                for (first, second) in black_box(pairs) {
                    by_hand::write_numbers(&mut contents, *first as i64, i64::from(*second));
                }
                by_hand::enclosed(48, &contents)
            })
        })
}

// The upstream crate has no CER.
fn pairs_cer() -> Case {
    Case::new("write 20k pairs, CER", 5)
        .with(Port, || port::write_pairs_cer(black_box(PAIRS)))
        .with(Bcder, || bcder_pairs(bcder::Mode::Cer))
        .with(ByHand, || {
            let mut bytes = vec![48, 128];
            for number in 0..i64::from(black_box(PAIRS)) {
                by_hand::write_pair_cer(&mut bytes, number, number % 2 == 0);
            }
            bytes.extend([0, 0]);
            length(bytes)
        })
}

fn nested_pairs(name: &'static str, depth: usize) -> Case {
    fn within(seq: &mut DERWriterSeq, depth: usize) {
        match depth {
            0 => inputs::write_pairs(seq, black_box(PAIRS)),
            _ => seq.next().write_sequence(|inner| within(inner, depth - 1)),
        }
    }
    Case::new(name, 5)
        .with(Port, move || port::write_pairs(black_box(PAIRS), depth))
        .with(Upstream, move || {
            length(construct_der(|writer| {
                writer.write_sequence(|seq| within(seq, depth))
            }))
        })
}

fn nest(name: &'static str, contents: &'static [u8], depth: usize, calls: usize) -> Case {
    Case::new(name, calls)
        .with(Port, move || port::write_nest(black_box(contents), depth))
        .with(Upstream, move || {
            length(construct_der(|writer| {
                inputs::write_nest(writer, black_box(contents), depth)
            }))
        })
}
