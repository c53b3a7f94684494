//! Cases of both times.

use crate::inputs::{kept, mixed, REFUSED};
use crate::measure::Case;
use crate::measure::Contestant::{Port, Upstream};
use crate::port;
use std::hint::black_box;
use yasna::models::{GeneralizedTime, UTCTime};
use yasna::{construct_der, parse_der};

const TIMES: usize = 10_000;

const UTC: &[u8] = b"820102120059Z";

const GENERALIZED: &[u8] = b"19851106210627.25Z";

pub fn cases() -> Vec<Case> {
    vec![
        parse_utc(),
        parse_generalized(),
        print_utc(),
        print_generalized(),
        read_utc(),
        read_generalized(),
        write_utc(),
        write_generalized(),
    ]
}

// Texts of UTCTime, one after the other.
fn utc_texts() -> &'static [u8] {
    let text = |number: usize| {
        let (month, day) = (number % 12 + 1, number % 28 + 1);
        let (hour, minute) = (number % 24, number % 60);
        format!(
            "{:02}{month:02}{day:02}{hour:02}{minute:02}{:02}Z",
            number % 100,
            number % 59
        )
    };
    kept((0..TIMES).flat_map(|n| text(n).into_bytes()).collect())
}

// Texts of GeneralizedTime, one after the other.
fn generalized_texts() -> &'static [u8] {
    let text = |number: usize| {
        let (month, day) = (number % 12 + 1, number % 28 + 1);
        let (hour, minute) = (number % 24, number % 60);
        let (second, thousandth) = (number % 59, number % 999 + 1);
        format!(
            "{:04}{month:02}{day:02}{hour:02}{minute:02}{second:02}.{thousandth:03}Z",
            number
        )
    };
    kept((0..TIMES).flat_map(|n| text(n).into_bytes()).collect())
}

fn second_in(checksum: u64, second: u8) -> u64 {
    mixed(checksum, i64::from(black_box(second)))
}

fn length_in(checksum: u64, text: Vec<u8>) -> u64 {
    mixed(checksum, black_box(text).len() as i64)
}

fn parse_utc() -> Case {
    let texts = utc_texts();
    Case::new("10k UTCTimes parsed", 20)
        .with(Port, move || port::parse_utc_times(black_box(texts)))
        .with(Upstream, move || {
            let parsed = black_box(texts).chunks(13).try_fold(0, |checksum, text| {
                let time = UTCTime::parse(text)?;
                Some(second_in(checksum, time.datetime().second()))
            });
            parsed.unwrap_or(REFUSED)
        })
}

fn parse_generalized() -> Case {
    let texts = generalized_texts();
    Case::new("10k GeneralizedTimes parsed", 20)
        .with(Port, move || {
            port::parse_generalized_times(black_box(texts))
        })
        .with(Upstream, move || {
            let parsed = black_box(texts).chunks(19).try_fold(0, |checksum, text| {
                let time = GeneralizedTime::parse(text)?;
                Some(second_in(checksum, time.datetime().second()))
            });
            parsed.unwrap_or(REFUSED)
        })
}

fn print_utc() -> Case {
    let time = UTCTime::parse(UTC).expect("a time");
    Case::new("10k UTCTimes printed", 20)
        .with(Port, || port::print_utc_times(black_box(UTC), TIMES))
        .with(Upstream, move || {
            (0..TIMES).fold(0, |checksum, _| length_in(checksum, black_box(&time).to_bytes()))
        })
}

fn print_generalized() -> Case {
    let time = GeneralizedTime::parse(GENERALIZED).expect("a time");
    Case::new("10k GeneralizedTimes printed", 20)
        .with(Port, || {
            port::print_generalized_times(black_box(GENERALIZED), TIMES)
        })
        .with(Upstream, move || {
            (0..TIMES).fold(0, |checksum, _| length_in(checksum, black_box(&time).to_bytes()))
        })
}

fn read_utc() -> Case {
    let texts = utc_texts();
    let bytes = kept(construct_der(|writer| {
        writer.write_sequence(|seq| {
            let times = texts.chunks(13).filter_map(UTCTime::parse);
            times.for_each(|time| seq.next().write_utctime(&time))
        })
    }));
    Case::new("10k UTCTimes read", 20)
        .with(Port, move || {
            port::read_utc_times(black_box(bytes), TIMES, true)
        })
        .with(Upstream, move || {
            let read = parse_der(black_box(bytes), |reader| {
                reader.read_sequence(|seq| {
                    (0..TIMES).try_fold(0, |checksum, _| {
                        let time = seq.next().read_utctime()?;
                        Ok(second_in(checksum, time.datetime().second()))
                    })
                })
            });
            read.unwrap_or(REFUSED)
        })
}

fn read_generalized() -> Case {
    let texts = generalized_texts();
    let bytes = kept(construct_der(|writer| {
        writer.write_sequence(|seq| {
            let times = texts.chunks(19).filter_map(GeneralizedTime::parse);
            times.for_each(|time| seq.next().write_generalized_time(&time))
        })
    }));
    Case::new("10k GeneralizedTimes read", 20)
        .with(Port, move || {
            port::read_generalized_times(black_box(bytes), TIMES, true)
        })
        .with(Upstream, move || {
            let read = parse_der(black_box(bytes), |reader| {
                reader.read_sequence(|seq| {
                    (0..TIMES).try_fold(0, |checksum, _| {
                        let time = seq.next().read_generalized_time()?;
                        Ok(second_in(checksum, time.datetime().second()))
                    })
                })
            });
            read.unwrap_or(REFUSED)
        })
}

fn write_utc() -> Case {
    let time = UTCTime::parse(UTC).expect("a time");
    Case::new("10k UTCTimes written", 20)
        .with(Port, || port::write_utc_times(black_box(UTC), TIMES))
        .with(Upstream, move || {
            let written = construct_der(|writer| {
                writer.write_sequence(|seq| {
                    (0..TIMES).for_each(|_| seq.next().write_utctime(black_box(&time)))
                })
            });
            black_box(written).len() as u64
        })
}

fn write_generalized() -> Case {
    let time = GeneralizedTime::parse(GENERALIZED).expect("a time");
    Case::new("10k GeneralizedTimes written", 20)
        .with(Port, || {
            port::write_generalized_times(black_box(GENERALIZED), TIMES)
        })
        .with(Upstream, move || {
            let written = construct_der(|writer| {
                writer.write_sequence(|seq| {
                    (0..TIMES).for_each(|_| seq.next().write_generalized_time(black_box(&time)))
                })
            });
            black_box(written).len() as u64
        })
}
