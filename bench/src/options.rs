//! Cases of ten parts that may be omitted, each under a tag of its own: by calls that are written one after the other, and by one call
//! in a loop. Both sides have the same form.

use crate::inputs::{kept, mixed, REFUSED};
use crate::measure::Case;
use crate::measure::Contestant::{Port, Upstream};
use crate::port;
use std::hint::black_box;
use yasna::{construct_der, parse_der, ASN1Result, BERReaderSeq, Tag};

const PARTS: u64 = 10;

pub fn cases() -> Vec<Case> {
    let explicit = kept(construct_der(|writer| {
        writer.write_sequence(|parts| {
            for tag in 0..PARTS {
                parts
                    .next()
                    .write_tagged(Tag::context(tag), |part| part.write_i64(7))
            }
        })
    }));
    let implicit = kept(construct_der(|writer| {
        writer.write_sequence(|parts| {
            for tag in 0..PARTS {
                parts
                    .next()
                    .write_tagged_implicit(Tag::context(tag), |part| part.write_i64(7))
            }
        })
    }));
    let none = kept(vec![48, 0]);
    vec![
        case(
            "10 options, explicit, absent",
            none,
            port::ten_explicit,
            ten_explicit,
        ),
        case(
            "10 options, explicit, present",
            explicit,
            port::ten_explicit,
            ten_explicit,
        ),
        case(
            "10 options, implicit, absent",
            none,
            port::ten_implicit,
            ten_implicit,
        ),
        case(
            "10 options, implicit, present",
            implicit,
            port::ten_implicit,
            ten_implicit,
        ),
        case(
            "10 options in a loop, explicit, absent",
            none,
            port::ten_explicit_looped,
            explicit_looped,
        ),
        case(
            "10 options in a loop, explicit, present",
            explicit,
            port::ten_explicit_looped,
            explicit_looped,
        ),
        case(
            "10 options in a loop, implicit, absent",
            none,
            port::ten_implicit_looped,
            implicit_looped,
        ),
        case(
            "10 options in a loop, implicit, present",
            implicit,
            port::ten_implicit_looped,
            implicit_looped,
        ),
    ]
}

type Parts = fn(&mut BERReaderSeq) -> ASN1Result<u64>;

fn case(name: &'static str, bytes: &'static [u8], port: fn(&[u8]) -> u64, parts: Parts) -> Case {
    Case::new(name, 50_000)
        .with(Port, move || port(black_box(bytes)))
        .with(Upstream, move || {
            parse_der(black_box(bytes), |reader| reader.read_sequence(parts)).unwrap_or(REFUSED)
        })
}

fn ten_explicit(parts: &mut BERReaderSeq) -> ASN1Result<u64> {
    let first = five_explicit(parts, 0)?;
    let second = five_explicit(parts, 5)?;
    Ok(mixed(first, second as i64))
}

#[inline(always)]
fn five_explicit(parts: &mut BERReaderSeq, tag: u64) -> ASN1Result<u64> {
    let mut checksum = mixed(0, explicit(parts, tag)?);
    checksum = mixed(checksum, explicit(parts, tag + 1)?);
    checksum = mixed(checksum, explicit(parts, tag + 2)?);
    checksum = mixed(checksum, explicit(parts, tag + 3)?);
    Ok(mixed(checksum, explicit(parts, tag + 4)?))
}

fn ten_implicit(parts: &mut BERReaderSeq) -> ASN1Result<u64> {
    let first = five_implicit(parts, 0)?;
    let second = five_implicit(parts, 5)?;
    Ok(mixed(first, second as i64))
}

#[inline(always)]
fn five_implicit(parts: &mut BERReaderSeq, tag: u64) -> ASN1Result<u64> {
    let mut checksum = mixed(0, implicit(parts, tag)?);
    checksum = mixed(checksum, implicit(parts, tag + 1)?);
    checksum = mixed(checksum, implicit(parts, tag + 2)?);
    checksum = mixed(checksum, implicit(parts, tag + 3)?);
    Ok(mixed(checksum, implicit(parts, tag + 4)?))
}

// The callback is this loop's own.
fn explicit_looped(parts: &mut BERReaderSeq) -> ASN1Result<u64> {
    (0..PARTS).try_fold(0, |checksum, tag| {
        let part = parts.read_optional(|part| {
            part.read_tagged(Tag::context(tag), |number| number.read_i64())
        })?;
        Ok(mixed(checksum, part.unwrap_or(0)))
    })
}

// The callback is this loop's own.
fn implicit_looped(parts: &mut BERReaderSeq) -> ASN1Result<u64> {
    (0..PARTS).try_fold(0, |checksum, tag| {
        let part = parts.read_optional(|part| {
            part.read_tagged_implicit(Tag::context(tag), |number| number.read_i64())
        })?;
        Ok(mixed(checksum, part.unwrap_or(0)))
    })
}

#[inline(always)]
fn explicit(parts: &mut BERReaderSeq, tag: u64) -> ASN1Result<i64> {
    let part = parts
        .read_optional(|part| part.read_tagged(Tag::context(tag), |number| number.read_i64()))?;
    Ok(part.unwrap_or(0))
}

#[inline(always)]
fn implicit(parts: &mut BERReaderSeq, tag: u64) -> ASN1Result<i64> {
    let part = parts.read_optional(|part| {
        part.read_tagged_implicit(Tag::context(tag), |number| number.read_i64())
    })?;
    Ok(part.unwrap_or(0))
}
