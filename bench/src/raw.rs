//! Cases of raw elements.

use crate::by_hand;
use crate::certificates::{self, CERTIFICATES};
use crate::inputs::{mixed, REFUSED};
use crate::measure::Case;
use crate::measure::Contestant::{Bcder, ByHand, Port, Upstream};
use crate::port;
use std::hint::black_box;

pub fn cases() -> Vec<Case> {
    vec![certificates()]
}

// What an element adds to a checksum.
fn length_in(checksum: u64, element: &[u8]) -> u64 {
    mixed(checksum, black_box(element).len() as i64)
}

// Upstream and bcder copy the bytes of an element; only bcder descends into them, as this library does.
fn certificates() -> Case {
    let bytes = certificates::list();
    Case::new("read_der of 150 certificates in DER", 20)
        .with(Port, move || {
            port::read_raw(black_box(bytes), CERTIFICATES, true)
        })
        .with(Upstream, move || {
            let read = yasna::parse_der(black_box(bytes), |reader| {
                reader.read_sequence(|seq| {
                    (0..CERTIFICATES).try_fold(0, |checksum, _| {
                        Ok(length_in(checksum, &seq.next().read_der()?))
                    })
                })
            });
            read.unwrap_or(REFUSED)
        })
        .with(Bcder, move || {
            let read = bcder::Mode::Der.decode(black_box(bytes), |parts| {
                parts.take_sequence(|parts| {
                    (0..CERTIFICATES).try_fold(0, |checksum, _| {
                        Ok(length_in(checksum, parts.capture_one()?.as_slice()))
                    })
                })
            });
            read.unwrap_or(REFUSED)
        })
        .with(ByHand, move || {
            by_hand::read_raw(black_box(bytes)).unwrap_or(REFUSED)
        })
}
