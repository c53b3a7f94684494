//! Cases that read.

use crate::by_hand::{self, Bytes};
use crate::inputs::{self, kept, mixed, pair_checksum, INTEGERS, PAIRS, REFUSED};
use crate::measure::Case;
use crate::measure::Contestant::{Asn1, Bcder, ByHand, Port, Upstream};
use crate::port;
use bcder::decode::{Constructed, Source};
use std::hint::black_box;
use yasna::{parse_ber_general, ASN1Result, BERMode, BERReader, BERReaderSeq, Tag};

const DEPTH: usize = 100;

pub fn cases() -> Vec<Case> {
    let small = inputs::integer_list(inputs::small_integers());
    let numbers = inputs::mixed_integers();
    let large = inputs::integer_list(numbers);
    vec![
        pair(
            "decode a pair, DER",
            kept(vec![48, 6, 2, 1, 10, 1, 1, 255]),
            true,
        ),
        pair(
            "decode a pair, BER",
            kept(vec![48, 128, 2, 1, 10, 1, 1, 255, 0, 0]),
            false,
        ),
        pair(
            "reject a pair at its end",
            kept(vec![48, 6, 2, 1, 10, 1, 1, 254]),
            true,
        ),
        integers("100k small integers, read in a loop", small),
        integers("100k mixed integers", large),
        list("100k mixed integers, into a list", large),
        pairs("20k pairs read", inputs::pair_list(PAIRS)),
        options("20k pairs of options read", inputs::pair_list(PAIRS)),
        tagged("100k tagged integers read", inputs::tagged_list(numbers)),
        nest("nested 100, DER", inputs::nest(DEPTH), true),
        nest("nested 100, BER", inputs::indefinite_nest(DEPTH), false),
        big_integer("big integer of 1 MiB read"),
        integers(
            "reject 100k integers at the end",
            inputs::broken_list(numbers),
        ),
    ]
}

fn mode(der: bool) -> BERMode {
    if der {
        BERMode::Der
    } else {
        BERMode::Ber
    }
}

fn bcder_mode(der: bool) -> bcder::Mode {
    if der {
        bcder::Mode::Der
    } else {
        bcder::Mode::Ber
    }
}

fn bcder_integer<S: Source>(parts: &mut Constructed<S>) -> Result<i64, S::Err> {
    parts.take_primitive_if(bcder::Tag::INTEGER, |contents| contents.to_i64())
}

fn bcder_pair<S: Source>(parts: &mut Constructed<S>) -> Result<u64, S::Err> {
    parts.take_sequence(|pair| Ok(pair_checksum(bcder_integer(pair)?, pair.take_bool()?)))
}

fn asn1_pair(parser: &mut asn1::Parser) -> asn1::ParseResult<u64> {
    parser
        .read_element::<asn1::Sequence>()?
        .parse(|pair| Ok(pair_checksum(pair.read_element()?, pair.read_element()?)))
}

fn pair(name: &'static str, bytes: &'static [u8], der: bool) -> Case {
    let case = Case::new(name, 200_000)
        .with(Port, move || port::decode_pair(black_box(bytes), der))
        .with(Upstream, move || {
            yasna::decode_ber_general::<(i64, bool)>(black_box(bytes), mode(der))
                .map_or(REFUSED, |(number, flag)| pair_checksum(number, flag))
        })
        .with(Bcder, move || {
            bcder_mode(der)
                .decode(black_box(bytes), |parts| bcder_pair(parts))
                .unwrap_or(REFUSED)
        });
    if !der {
        return case;
    }
    case.with(Asn1, move || {
        asn1::parse(black_box(bytes), asn1_pair).unwrap_or(REFUSED)
    })
    .with(ByHand, move || {
        let mut bytes = Bytes(black_box(bytes));
        bytes
            .pair()
            .filter(|_| bytes.0.is_empty())
            .unwrap_or(REFUSED)
    })
}

fn integers(name: &'static str, bytes: &'static [u8]) -> Case {
    Case::new(name, 3)
        .with(Port, move || {
            port::read_integers(black_box(bytes), INTEGERS, true)
        })
        .with(Upstream, move || {
            let read = yasna::parse_der(black_box(bytes), |reader| {
                reader.read_sequence(|seq| {
                    (0..INTEGERS)
                        .try_fold(0, |checksum, _| Ok(mixed(checksum, seq.next().read_i64()?)))
                })
            });
            read.unwrap_or(REFUSED)
        })
        .with(Asn1, move || {
            let read = asn1::parse(black_box(bytes), |parser| {
                parser.read_element::<asn1::Sequence>()?.parse(|parts| {
                    let mut checksum = 0;
                    for _ in 0..INTEGERS {
                        checksum = mixed(checksum, parts.read_element()?);
                    }
                    Ok::<_, asn1::ParseError>(checksum)
                })
            });
            read.unwrap_or(REFUSED)
        })
        .with(Bcder, move || {
            let read = bcder::Mode::Der.decode(black_box(bytes), |parts| {
                parts.take_sequence(|parts| {
                    let mut checksum = 0;
                    for _ in 0..INTEGERS {
                        checksum = mixed(checksum, bcder_integer(parts)?);
                    }
                    Ok(checksum)
                })
            });
            read.unwrap_or(REFUSED)
        })
        .with(ByHand, move || {
            by_hand::read_integers(black_box(bytes)).unwrap_or(REFUSED)
        })
}

fn list(name: &'static str, bytes: &'static [u8]) -> Case {
    let checksum = |numbers: &[i64]| {
        numbers
            .iter()
            .fold(0, |checksum, number| mixed(checksum, *number))
    };
    Case::new(name, 3)
        .with(Port, move || port::list_integers(black_box(bytes), true))
        .with(Upstream, move || {
            let read = yasna::decode_der::<Vec<i64>>(black_box(bytes));
            read.map_or(REFUSED, |numbers| checksum(&numbers))
        })
        .with(Asn1, move || {
            let read = asn1::parse_single::<asn1::SequenceOf<i64>>(black_box(bytes));
            read.map_or(REFUSED, |numbers| checksum(&numbers.collect::<Vec<_>>()))
        })
        .with(Bcder, move || {
            let read = bcder::Mode::Der.decode(black_box(bytes), |parts| {
                parts.take_sequence(|parts| {
                    let mut numbers = Vec::new();
                    while let Some(number) = parts
                        .take_opt_primitive_if(bcder::Tag::INTEGER, |contents| contents.to_i64())?
                    {
                        numbers.push(number);
                    }
                    Ok(numbers)
                })
            });
            read.map_or(REFUSED, |numbers| checksum(&numbers))
        })
        .with(ByHand, move || {
            by_hand::list_integers(black_box(bytes)).map_or(REFUSED, |numbers| checksum(&numbers))
        })
}

fn pairs(name: &'static str, bytes: &'static [u8]) -> Case {
    let count = PAIRS as usize;
    Case::new(name, 5)
        .with(Port, move || {
            port::read_pairs(black_box(bytes), count, true)
        })
        .with(Upstream, move || {
            let read = yasna::parse_der(black_box(bytes), |reader| {
                reader.read_sequence(|seq| {
                    let mut checksum = 0;
                    for _ in 0..count {
                        let pair = seq.next().read_sequence(|parts| {
                            Ok(pair_checksum(
                                parts.next().read_i64()?,
                                parts.next().read_bool()?,
                            ))
                        })?;
                        checksum = mixed(checksum, pair as i64);
                    }
                    Ok(checksum)
                })
            });
            read.unwrap_or(REFUSED)
        })
        .with(Asn1, move || {
            let read = asn1::parse(black_box(bytes), |parser| {
                parser.read_element::<asn1::Sequence>()?.parse(|parts| {
                    let mut checksum = 0;
                    for _ in 0..count {
                        checksum = mixed(checksum, asn1_pair(parts)? as i64);
                    }
                    Ok::<_, asn1::ParseError>(checksum)
                })
            });
            read.unwrap_or(REFUSED)
        })
        .with(Bcder, move || {
            let read = bcder::Mode::Der.decode(black_box(bytes), |parts| {
                parts.take_sequence(|parts| {
                    let mut checksum = 0;
                    for _ in 0..count {
                        checksum = mixed(checksum, bcder_pair(parts)? as i64);
                    }
                    Ok(checksum)
                })
            });
            read.unwrap_or(REFUSED)
        })
        .with(ByHand, move || {
            by_hand::read_pairs(black_box(bytes)).unwrap_or(REFUSED)
        })
}

fn upstream_nest(reader: BERReader, depth: usize) -> ASN1Result<i64> {
    fn within(seq: &mut BERReaderSeq, depth: usize) -> ASN1Result<i64> {
        upstream_nest(seq.next(), depth)
    }
    match depth {
        0 => reader.read_i64(),
        _ => reader.read_sequence(|seq| within(seq, depth - 1)),
    }
}

fn asn1_nest(parser: &mut asn1::Parser, depth: usize) -> asn1::ParseResult<i64> {
    match depth {
        0 => parser.read_element(),
        _ => parser
            .read_element::<asn1::Sequence>()?
            .parse(|parts| asn1_nest(parts, depth - 1)),
    }
}

fn bcder_nest<S: Source>(parts: &mut Constructed<S>, depth: usize) -> Result<i64, S::Err> {
    match depth {
        0 => bcder_integer(parts),
        _ => parts.take_sequence(|parts| bcder_nest(parts, depth - 1)),
    }
}

fn nest_by_hand(bytes: &mut Bytes, depth: usize) -> Option<i64> {
    match depth {
        0 => bytes.integer(),
        _ => bytes.sequence(|contents| nest_by_hand(contents, depth - 1)),
    }
}

fn options(name: &'static str, bytes: &'static [u8]) -> Case {
    let count = PAIRS as usize;
    Case::new(name, 5)
        .with(Port, move || {
            port::read_options(black_box(bytes), count, false)
        })
        .with(Upstream, move || {
            let read = yasna::parse_ber(black_box(bytes), |reader| {
                reader.read_sequence(|seq| {
                    let mut checksum = 0;
                    for _ in 0..count {
                        let pair = seq.next().read_sequence(|parts| {
                            let null = parts.read_optional(|part| part.read_null())?;
                            let number = parts.read_optional(|part| part.read_i64())?;
                            let flag = parts.read_default(false, |part| part.read_bool())?;
                            Ok(pair_checksum(number.unwrap_or(0), flag != null.is_some()))
                        })?;
                        checksum = mixed(checksum, pair as i64);
                    }
                    Ok(checksum)
                })
            });
            read.unwrap_or(REFUSED)
        })
}

fn tagged(name: &'static str, bytes: &'static [u8]) -> Case {
    Case::new(name, 3)
        .with(Port, move || {
            port::read_tagged(black_box(bytes), INTEGERS, true)
        })
        .with(Upstream, move || {
            let read = yasna::parse_der(black_box(bytes), |reader| {
                reader.read_sequence(|seq| {
                    let mut checksum = 0;
                    for _ in 0..INTEGERS {
                        let number = seq.next().read_tagged(Tag::context(0), |inner| {
                            inner.read_tagged_implicit(Tag::context(1), |reader| reader.read_i64())
                        })?;
                        checksum = mixed(checksum, number);
                    }
                    Ok(checksum)
                })
            });
            read.unwrap_or(REFUSED)
        })
}

fn nest(name: &'static str, bytes: &'static [u8], der: bool) -> Case {
    let case = Case::new(name, 10_000)
        .with(Port, move || port::read_nest(black_box(bytes), DEPTH, der))
        .with(Upstream, move || {
            let read = parse_ber_general(black_box(bytes), mode(der), |reader| {
                upstream_nest(reader, DEPTH)
            });
            read.map_or(REFUSED, |number| mixed(0, number))
        })
        .with(Bcder, move || {
            let read = bcder_mode(der).decode(black_box(bytes), |parts| bcder_nest(parts, DEPTH));
            read.map_or(REFUSED, |number| mixed(0, number))
        });
    if !der {
        return case;
    }
    case.with(Asn1, move || {
        let read = asn1::parse(black_box(bytes), |parser| asn1_nest(parser, DEPTH));
        read.map_or(REFUSED, |number| mixed(0, number))
    })
    .with(ByHand, move || {
        nest_by_hand(&mut Bytes(black_box(bytes)), DEPTH).map_or(REFUSED, |number| mixed(0, number))
    })
}

fn big_integer(name: &'static str) -> Case {
    let contents = inputs::big_contents();
    let bytes = kept(yasna::construct_der(|writer| {
        writer.write_bigint_bytes(contents, true)
    }));
    Case::new(name, 10)
        .with(Port, move || port::read_big_integer(black_box(bytes), true))
        .with(Upstream, move || {
            let read = yasna::parse_der(black_box(bytes), |reader| reader.read_bigint_bytes());
            read.map_or(REFUSED, |(contents, _)| black_box(contents).len() as u64)
        })
        .with(Asn1, move || {
            let read = asn1::parse_single::<asn1::BigInt>(black_box(bytes));
            read.map_or(REFUSED, |number| {
                black_box(number.as_bytes().to_vec()).len() as u64
            })
        })
        .with(ByHand, move || {
            black_box(black_box(contents).to_vec()).len() as u64
        })
}
