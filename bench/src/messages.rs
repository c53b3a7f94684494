//! Cases of whole certificates (RFC 5280), read into types of their own and written again.
//!
//! The certificates are the first of those that the machine trusts, where it has such a list.

use crate::asn1_certificates;
use crate::inputs::{kept, mixed, REFUSED};
use crate::measure::Case;
use crate::measure::Contestant::{Asn1, Port, Upstream};
use crate::port;
use std::fs;
use std::hint::black_box;
use yasna::models::{GeneralizedTime, ObjectIdentifier, TaggedDerValue, UTCTime};
use yasna::tags::{TAG_GENERALIZEDTIME, TAG_UTCTIME};
use yasna::{
    construct_der, parse_der, ASN1Error, ASN1ErrorKind, ASN1Result, BERReader, BERReaderSeq,
    DERWriter, DERWriterSeq, Tag,
};

const TRUSTED: &str = "/etc/ssl/certs/ca-certificates.crt";

const COUNT: usize = 12;

// How many times they are written, once they are read: so a read counts little.
const TIMES: u64 = 100;

pub fn cases() -> Vec<Case> {
    match trusted() {
        Some(bytes) => vec![read(bytes), rewrite(bytes), write(bytes)],
        None => vec![],
    }
}

fn read(bytes: &'static [u8]) -> Case {
    Case::new("12 certificates read", 200)
        .by_parts(COUNT)
        .with(Port, move || port::read_certificates(black_box(bytes)))
        .with(Upstream, move || {
            read_list(bytes).map_or(REFUSED, |certificates| {
                certificates.iter().fold(0, |checksum, certificate| {
                    mixed(checksum, black_box(certificate).signature_value.1 as i64)
                })
            })
        })
}

fn rewrite(bytes: &'static [u8]) -> Case {
    Case::new("12 certificates read and written", 200)
        .by_parts(COUNT)
        .with(Port, move || port::rewrite_certificates(black_box(bytes)))
        .with(Upstream, move || {
            read_list(bytes).map_or(REFUSED, |certificates| {
                black_box(write_list(&certificates)).len() as u64
            })
        })
}

fn write(bytes: &'static [u8]) -> Case {
    Case::new("12 certificates written", 2)
        .by_parts(COUNT * TIMES as usize)
        .with(Port, move || {
            port::write_certificates(black_box(bytes), black_box(TIMES))
        })
        .with(Upstream, move || {
            read_list(bytes).map_or(REFUSED, |certificates| {
                (0..black_box(TIMES))
                    .map(|_| black_box(write_list(black_box(&certificates))).len() as u64)
                    .sum()
            })
        })
        .with(Asn1, move || {
            asn1_certificates::read(bytes).map_or(REFUSED, |certificates| {
                (0..black_box(TIMES))
                    .map(|_| asn1_certificates::write(black_box(certificates)).len() as u64)
                    .sum()
            })
        })
}

// The first certificates of the list, as a SEQUENCE OF.
fn trusted() -> Option<&'static [u8]> {
    let text = fs::read_to_string(TRUSTED).ok()?;
    let blocks = text.split("-----BEGIN CERTIFICATE-----").skip(1);
    let certificates: Vec<Vec<u8>> = blocks
        .filter_map(|block| from_base64(block.split("-----").next()?))
        .filter(|bytes| parse_der(bytes, read_certificate).is_ok())
        .take(COUNT)
        .collect();
    if certificates.len() < COUNT {
        return None;
    }
    Some(kept(construct_der(|writer| {
        writer.write_sequence_of(|list| {
            for certificate in &certificates {
                list.next().write_der(certificate)
            }
        })
    })))
}

fn from_base64(text: &str) -> Option<Vec<u8>> {
    let mut bytes = Vec::new();
    let (mut bits, mut count) = (0_u32, 0);
    for character in text
        .bytes()
        .filter(|character| !character.is_ascii_whitespace())
    {
        let sextet = match character {
            b'A'..=b'Z' => character - b'A',
            b'a'..=b'z' => character - b'a' + 26,
            b'0'..=b'9' => character - b'0' + 52,
            b'+' => 62,
            b'/' => 63,
            b'=' => break,
            _ => return None,
        };
        bits = bits << 6 | u32::from(sextet);
        count += 6;
        if count >= 8 {
            count -= 8;
            bytes.push((bits >> count) as u8);
        }
    }
    Some(bytes)
}

struct Certificate {
    tbs_certificate: TbsCertificate,
    signature_algorithm: AlgorithmIdentifier,
    signature_value: (Vec<u8>, usize),
}

struct TbsCertificate {
    version: u64,
    serial_number: (Vec<u8>, bool),
    signature: AlgorithmIdentifier,
    issuer: Name,
    validity: (Time, Time),
    subject: Name,
    subject_public_key_info: (AlgorithmIdentifier, (Vec<u8>, usize)),
    issuer_unique_id: Option<(Vec<u8>, usize)>,
    subject_unique_id: Option<(Vec<u8>, usize)>,
    extensions: Option<Vec<Extension>>,
}

struct AlgorithmIdentifier {
    algorithm: ObjectIdentifier,
    parameters: Option<TaggedDerValue>,
}

type Name = Vec<Vec<(ObjectIdentifier, TaggedDerValue)>>;

enum Time {
    Utc(UTCTime),
    General(GeneralizedTime),
}

struct Extension {
    extn_id: ObjectIdentifier,
    critical: bool,
    extn_value: Vec<u8>,
}

fn read_list(bytes: &[u8]) -> ASN1Result<Vec<Certificate>> {
    parse_der(black_box(bytes), |reader| {
        reader.collect_sequence_of(read_certificate)
    })
}

fn read_certificate(reader: BERReader) -> ASN1Result<Certificate> {
    reader.read_sequence(|parts| {
        Ok(Certificate {
            tbs_certificate: parts.next().read_sequence(read_tbs)?,
            signature_algorithm: read_algorithm(parts.next())?,
            signature_value: parts.next().read_bitvec_bytes()?,
        })
    })
}

fn read_tbs(parts: &mut BERReaderSeq) -> ASN1Result<TbsCertificate> {
    let version = parts.read_default(0, |part| {
        part.read_tagged(Tag::context(0), |number| number.read_u64())
    })?;
    if version > 2 {
        return Err(ASN1Error::new(ASN1ErrorKind::Invalid));
    }
    Ok(TbsCertificate {
        version,
        serial_number: parts.next().read_bigint_bytes()?,
        signature: read_algorithm(parts.next())?,
        issuer: read_name(parts.next())?,
        validity: parts
            .next()
            .read_sequence(|times| Ok((read_time(times.next())?, read_time(times.next())?)))?,
        subject: read_name(parts.next())?,
        subject_public_key_info: parts.next().read_sequence(|key| {
            Ok((read_algorithm(key.next())?, key.next().read_bitvec_bytes()?))
        })?,
        issuer_unique_id: read_unique_id(parts, 1)?,
        subject_unique_id: read_unique_id(parts, 2)?,
        extensions: parts.read_optional(|part| {
            part.read_tagged(Tag::context(3), |list| {
                let extensions = list.collect_sequence_of(read_extension)?;
                if extensions.is_empty() {
                    return Err(ASN1Error::new(ASN1ErrorKind::Invalid));
                }
                Ok(extensions)
            })
        })?,
    })
}

fn read_unique_id(parts: &mut BERReaderSeq, number: u64) -> ASN1Result<Option<(Vec<u8>, usize)>> {
    parts.read_optional(|part| {
        part.read_tagged_implicit(Tag::context(number), |bits| bits.read_bitvec_bytes())
    })
}

fn read_algorithm(reader: BERReader) -> ASN1Result<AlgorithmIdentifier> {
    reader.read_sequence(|parts| {
        Ok(AlgorithmIdentifier {
            algorithm: parts.next().read_oid()?,
            parameters: parts.read_optional(|part| part.read_tagged_der())?,
        })
    })
}

fn read_name(reader: BERReader) -> ASN1Result<Name> {
    reader.collect_sequence_of(|attributes| {
        let attributes = attributes.collect_set_of(|attribute| {
            attribute.read_sequence(|parts| {
                Ok((parts.next().read_oid()?, parts.next().read_tagged_der()?))
            })
        })?;
        if attributes.is_empty() {
            return Err(ASN1Error::new(ASN1ErrorKind::Invalid));
        }
        Ok(attributes)
    })
}

fn read_time(reader: BERReader) -> ASN1Result<Time> {
    match reader.lookahead_tag()? {
        TAG_UTCTIME => reader.read_utctime().map(Time::Utc),
        TAG_GENERALIZEDTIME => reader.read_generalized_time().map(Time::General),
        _ => Err(ASN1Error::new(ASN1ErrorKind::Invalid)),
    }
}

fn read_extension(reader: BERReader) -> ASN1Result<Extension> {
    reader.read_sequence(|parts| {
        Ok(Extension {
            extn_id: parts.next().read_oid()?,
            critical: parts.read_default(false, |part| part.read_bool())?,
            extn_value: parts.next().read_bytes()?,
        })
    })
}

fn write_list(certificates: &[Certificate]) -> Vec<u8> {
    construct_der(|writer| {
        writer.write_sequence_of(|list| {
            for certificate in certificates {
                write_certificate(list.next(), certificate)
            }
        })
    })
}

fn write_certificate(writer: DERWriter, certificate: &Certificate) {
    writer.write_sequence(|parts| {
        parts
            .next()
            .write_sequence(|parts| write_tbs(parts, &certificate.tbs_certificate));
        write_algorithm(parts.next(), &certificate.signature_algorithm);
        let (octets, bits) = &certificate.signature_value;
        parts.next().write_bitvec_bytes(octets, *bits)
    })
}

fn write_tbs(parts: &mut DERWriterSeq, certificate: &TbsCertificate) {
    if certificate.version != 0 {
        parts
            .next()
            .write_tagged(Tag::context(0), |part| part.write_u64(certificate.version))
    }
    let (octets, is_positive) = &certificate.serial_number;
    parts.next().write_bigint_bytes(octets, *is_positive);
    write_algorithm(parts.next(), &certificate.signature);
    write_name(parts.next(), &certificate.issuer);
    parts.next().write_sequence(|times| {
        write_time(times.next(), &certificate.validity.0);
        write_time(times.next(), &certificate.validity.1)
    });
    write_name(parts.next(), &certificate.subject);
    parts.next().write_sequence(|key| {
        let (algorithm, (octets, bits)) = &certificate.subject_public_key_info;
        write_algorithm(key.next(), algorithm);
        key.next().write_bitvec_bytes(octets, *bits)
    });
    write_unique_id(parts, 1, &certificate.issuer_unique_id);
    write_unique_id(parts, 2, &certificate.subject_unique_id);
    if let Some(extensions) = &certificate.extensions {
        parts.next().write_tagged(Tag::context(3), |part| {
            part.write_sequence_of(|list| {
                for extension in extensions {
                    write_extension(list.next(), extension)
                }
            })
        })
    }
}

fn write_unique_id(parts: &mut DERWriterSeq, number: u64, id: &Option<(Vec<u8>, usize)>) {
    if let Some((octets, bits)) = id {
        parts
            .next()
            .write_tagged_implicit(Tag::context(number), |part| {
                part.write_bitvec_bytes(octets, *bits)
            })
    }
}

fn write_algorithm(writer: DERWriter, algorithm: &AlgorithmIdentifier) {
    writer.write_sequence(|parts| {
        parts.next().write_oid(&algorithm.algorithm);
        if let Some(parameters) = &algorithm.parameters {
            parts.next().write_tagged_der(parameters)
        }
    })
}

fn write_name(writer: DERWriter, name: &Name) {
    writer.write_sequence_of(|list| {
        for attributes in name {
            list.next().write_set_of(|set| {
                for (attribute, value) in attributes {
                    set.next().write_sequence(|parts| {
                        parts.next().write_oid(attribute);
                        parts.next().write_tagged_der(value)
                    })
                }
            })
        }
    })
}

fn write_time(writer: DERWriter, time: &Time) {
    match time {
        Time::Utc(time) => writer.write_utctime(time),
        Time::General(time) => writer.write_generalized_time(time),
    }
}

fn write_extension(writer: DERWriter, extension: &Extension) {
    writer.write_sequence(|parts| {
        parts.next().write_oid(&extension.extn_id);
        if extension.critical {
            parts.next().write_bool(true)
        }
        parts.next().write_bytes(&extension.extn_value)
    })
}
