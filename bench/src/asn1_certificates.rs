//! Certificates (RFC 5280) as types of `asn1`, read once and written by its derived writers.

use crate::inputs::kept;
use asn1::{
    Asn1Read, Asn1Write, BigInt, BitString, GeneralizedTime, ObjectIdentifier, ParseResult,
    SequenceOf, SequenceOfWriter, SetOf, SetOfWriter, Tlv, UtcTime,
};

#[derive(Asn1Read, Asn1Write)]
struct Algorithm<'a> {
    algorithm: ObjectIdentifier,
    parameters: Option<Tlv<'a>>,
}

#[derive(Asn1Read, Asn1Write)]
struct Attribute<'a> {
    kind: ObjectIdentifier,
    value: Tlv<'a>,
}

#[derive(Asn1Read, Asn1Write)]
enum Time {
    Utc(UtcTime),
    General(GeneralizedTime),
}

#[derive(Asn1Read, Asn1Write)]
struct Validity {
    not_before: Time,
    not_after: Time,
}

#[derive(Asn1Read, Asn1Write)]
struct Key<'a> {
    algorithm: Algorithm<'a>,
    key: BitString<'a>,
}

#[derive(Asn1Read, Asn1Write)]
struct Extension<'a> {
    kind: ObjectIdentifier,
    #[default(false)]
    critical: bool,
    value: &'a [u8],
}

#[derive(Asn1Read)]
struct ReadBody<'a> {
    #[explicit(0)]
    #[default(0)]
    version: u8,
    serial_number: BigInt<'a>,
    signature: Algorithm<'a>,
    issuer: SequenceOf<'a, SetOf<'a, Attribute<'a>>>,
    validity: Validity,
    subject: SequenceOf<'a, SetOf<'a, Attribute<'a>>>,
    key: Key<'a>,
    #[implicit(1)]
    issuer_unique_id: Option<BitString<'a>>,
    #[implicit(2)]
    subject_unique_id: Option<BitString<'a>>,
    #[explicit(3)]
    extensions: Option<SequenceOf<'a, Extension<'a>>>,
}

#[derive(Asn1Read)]
struct ReadCertificate<'a> {
    body: ReadBody<'a>,
    algorithm: Algorithm<'a>,
    signature: BitString<'a>,
}

type Name = SequenceOfWriter<'static, SetOfWriter<'static, Attribute<'static>>>;

#[derive(Asn1Write)]
struct Body {
    #[explicit(0)]
    #[default(0)]
    version: u8,
    serial_number: BigInt<'static>,
    signature: Algorithm<'static>,
    issuer: Name,
    validity: Validity,
    subject: Name,
    key: Key<'static>,
    #[implicit(1)]
    issuer_unique_id: Option<BitString<'static>>,
    #[implicit(2)]
    subject_unique_id: Option<BitString<'static>>,
    #[explicit(3)]
    extensions: Option<SequenceOfWriter<'static, Extension<'static>>>,
}

#[derive(Asn1Write)]
pub struct Certificate {
    body: Body,
    algorithm: Algorithm<'static>,
    signature: BitString<'static>,
}

/// The certificates of a SEQUENCE OF.
pub fn read(bytes: &'static [u8]) -> ParseResult<&'static [Certificate]> {
    let list = asn1::parse_single::<SequenceOf<ReadCertificate>>(bytes)?;
    Ok(kept(list.map(certificate).collect()))
}

/// A SEQUENCE OF these certificates.
pub fn write(certificates: &[Certificate]) -> Vec<u8> {
    asn1::write_single(&SequenceOfWriter::new(certificates)).expect("certificates can be written")
}

fn certificate(read: ReadCertificate<'static>) -> Certificate {
    Certificate {
        body: body(read.body),
        algorithm: read.algorithm,
        signature: read.signature,
    }
}

fn body(read: ReadBody<'static>) -> Body {
    Body {
        version: read.version,
        serial_number: read.serial_number,
        signature: read.signature,
        issuer: name(read.issuer),
        validity: read.validity,
        subject: name(read.subject),
        key: read.key,
        issuer_unique_id: read.issuer_unique_id,
        subject_unique_id: read.subject_unique_id,
        extensions: read
            .extensions
            .map(|list| SequenceOfWriter::new(kept(list.collect()))),
    }
}

fn name(read: SequenceOf<'static, SetOf<'static, Attribute<'static>>>) -> Name {
    let sets = read.map(|set| SetOfWriter::new(kept(set.collect())));
    SequenceOfWriter::new(kept(sets.collect()))
}
