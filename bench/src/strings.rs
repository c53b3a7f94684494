//! Cases of octet strings, texts and object identifiers.

use crate::inputs::{big_contents, kept, mixed, REFUSED};
use crate::measure::Case;
use crate::measure::Contestant::{Asn1, ByHand, Port, Upstream};
use crate::port;
use std::hint::black_box;
use yasna::models::ObjectIdentifier;
use yasna::{construct_der, parse_ber_general, BERMode};

const TEXTS: usize = 10_000;

const COMPONENTS: [u64; 7] = [1, 2, 840, 113_549, 1, 1, 11];

pub fn cases() -> Vec<Case> {
    vec![
        read_whole(),
        read_segments(),
        read_segments_cer(),
        read_bytes("octets of 1 MiB in segments of 1", segments(1), false, 1),
        write_bytes(),
        write_bytes_cer(),
        read_texts(),
        write_texts(),
        read_identifiers(),
        write_identifiers(),
        read_text("UTF8String of 1 MiB read, two bytes a character", "ä"),
        read_text("UTF8String of 1 MiB read, three bytes a character", "中"),
        read_bmp(),
        write_bmp(),
    ]
}

fn mode(der: bool) -> BERMode {
    if der {
        BERMode::Der
    } else {
        BERMode::Ber
    }
}

fn length(bytes: Vec<u8>) -> u64 {
    black_box(bytes).len() as u64
}

fn read_whole() -> Case {
    let contents = big_contents();
    let bytes = kept(construct_der(|writer| writer.write_bytes(contents)));
    read_bytes("octets of 1 MiB, whole", bytes, true, 10)
        .with(Asn1, move || {
            let read = asn1::parse_single::<&[u8]>(black_box(bytes));
            read.map_or(REFUSED, |bytes| length(bytes.to_vec()))
        })
        .with(ByHand, move || length(black_box(contents).to_vec()))
}

// By hand: one copy of the contents alone, less than any reader of segments can do.
fn read_segments() -> Case {
    let contents = big_contents();
    read_bytes("octets of 1 MiB in segments of 1000", segments(1000), false, 10)
        .with(ByHand, move || length(black_box(contents).to_vec()))
}

// The same segments are those of CER. The upstream crate has no CER, and reads them in BER.
fn read_segments_cer() -> Case {
    let contents = big_contents();
    let bytes = segments(1000);
    Case::new("octets of 1 MiB in segments of 1000, CER", 10)
        .with(Port, move || port::read_bytes_cer(black_box(bytes)))
        .with(Upstream, move || upstream_bytes(bytes, BERMode::Ber))
        .with(ByHand, move || length(black_box(contents).to_vec()))
}

// 1 MiB in segments of this size.
fn segments(size: usize) -> &'static [u8] {
    let mut bytes = vec![36, 128];
    for segment in big_contents().chunks(size) {
        bytes.extend(construct_der(|writer| writer.write_bytes(segment)));
    }
    bytes.extend([0, 0]);
    kept(bytes)
}

fn read_bytes(name: &'static str, bytes: &'static [u8], der: bool, calls: usize) -> Case {
    Case::new(name, calls)
        .with(Port, move || port::read_bytes(black_box(bytes), der))
        .with(Upstream, move || upstream_bytes(bytes, mode(der)))
}

fn upstream_bytes(bytes: &[u8], mode: BERMode) -> u64 {
    let read = parse_ber_general(black_box(bytes), mode, |reader| reader.read_bytes());
    read.map_or(REFUSED, length)
}

fn write_bytes() -> Case {
    let contents = big_contents();
    Case::new("octets of 1 MiB written", 10)
        .with(Port, move || port::write_bytes(black_box(contents)))
        .with(Upstream, move || {
            length(construct_der(|writer| {
                writer.write_bytes(black_box(contents))
            }))
        })
        .with(ByHand, move || {
            length([&[4, 131, 16, 0, 0][..], black_box(contents)].concat())
        })
}

// By hand: segments of 1000 octets, in room that was made once. The upstream crate has no CER.
fn write_bytes_cer() -> Case {
    let contents = big_contents();
    Case::new("octets of 1 MiB written, CER", 10)
        .with(Port, move || port::write_bytes_cer(black_box(contents)))
        .with(ByHand, move || {
            let contents = black_box(contents);
            let mut bytes = Vec::with_capacity(contents.len() + contents.len() / 200 + 16);
            bytes.extend([36, 128]);
            for segment in contents.chunks(1000) {
                let [.., high, low] = segment.len().to_be_bytes();
                bytes.extend([4, 130, high, low]);
                bytes.extend_from_slice(segment);
            }
            bytes.extend([0, 0]);
            length(bytes)
        })
}

// A SEQUENCE of short texts.
fn texts() -> &'static [u8] {
    kept(construct_der(|writer| {
        writer.write_sequence(|seq| {
            (0..TEXTS).for_each(|number| {
                seq.next()
                    .write_utf8_string(&"Grüße aus Köln"[..8 + number % 5])
            })
        })
    }))
}

fn read_texts() -> Case {
    let bytes = texts();
    Case::new("10k short UTF8Strings read", 20)
        .with(Port, move || port::read_texts(black_box(bytes), TEXTS, true))
        .with(Upstream, move || {
            let read = yasna::parse_der(black_box(bytes), |reader| {
                reader.read_sequence(|seq| {
                    (0..TEXTS).try_fold(0, |checksum, _| {
                        let text = seq.next().read_utf8string()?;
                        Ok(mixed(checksum, black_box(text).len() as i64))
                    })
                })
            });
            read.unwrap_or(REFUSED)
        })
}

fn write_texts() -> Case {
    let text = "Grüße aus Köln";
    Case::new("10k short UTF8Strings written", 20)
        .with(Port, move || port::write_texts(black_box(text), TEXTS))
        .with(Upstream, move || {
            length(construct_der(|writer| {
                writer.write_sequence(|seq| {
                    (0..TEXTS).for_each(|_| seq.next().write_utf8_string(black_box(text)))
                })
            }))
        })
}

fn read_identifiers() -> Case {
    let identifier = ObjectIdentifier::from_slice(&COMPONENTS);
    let bytes = kept(construct_der(|writer| {
        writer.write_sequence(|seq| (0..TEXTS).for_each(|_| seq.next().write_oid(&identifier)))
    }));
    Case::new("10k object identifiers read", 20)
        .with(Port, move || {
            port::read_identifiers(black_box(bytes), TEXTS, true)
        })
        .with(Upstream, move || {
            let read = yasna::parse_der(black_box(bytes), |reader| {
                reader.read_sequence(|seq| {
                    (0..TEXTS).try_fold(0, |checksum, _| {
                        let read = seq.next().read_oid()?;
                        Ok(mixed(checksum, black_box(read).components().len() as i64))
                    })
                })
            });
            read.unwrap_or(REFUSED)
        })
}

fn write_identifiers() -> Case {
    let identifier = ObjectIdentifier::from_slice(&COMPONENTS);
    Case::new("10k object identifiers written", 20)
        .with(Port, || port::write_identifiers(black_box(&COMPONENTS), TEXTS))
        .with(Upstream, move || {
            length(construct_der(|writer| {
                writer.write_sequence(|seq| {
                    (0..TEXTS).for_each(|_| seq.next().write_oid(black_box(&identifier)))
                })
            }))
        })
}

// 1 MiB of this character.
fn long_text(character: &str) -> &'static str {
    Box::leak(character.repeat((1 << 20) / character.len()).into_boxed_str())
}

fn read_text(name: &'static str, character: &str) -> Case {
    let text = long_text(character);
    let bytes = kept(construct_der(|writer| writer.write_utf8string(text)));
    Case::new(name, 10)
        .with(Port, move || port::read_text(black_box(bytes)))
        .with(Upstream, move || {
            let read = yasna::parse_der(black_box(bytes), |reader| reader.read_utf8string());
            read.map_or(REFUSED, |text| black_box(text).len() as u64)
        })
        .with(Asn1, move || {
            let read = asn1::parse_single::<asn1::Utf8String>(black_box(bytes));
            read.map_or(REFUSED, |text| black_box(text.as_str().to_owned()).len() as u64)
        })
}

fn read_bmp() -> Case {
    let bytes = kept(construct_der(|writer| {
        writer.write_bmp_string(long_text("中"))
    }));
    Case::new("BMPString of 1 MiB of UTF-8 read", 10)
        .with(Port, move || port::read_bmp(black_box(bytes)))
        .with(Upstream, move || {
            let read = yasna::parse_der(black_box(bytes), |reader| reader.read_bmp_string());
            read.map_or(REFUSED, |text| black_box(text).len() as u64)
        })
}

fn write_bmp() -> Case {
    let text = long_text("中");
    Case::new("BMPString of 1 MiB of UTF-8 written", 10)
        .with(Port, move || port::write_bmp(black_box(text)))
        .with(Upstream, move || {
            length(construct_der(|writer| {
                writer.write_bmp_string(black_box(text))
            }))
        })
}
