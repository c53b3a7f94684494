//! Elements that are built as certificates are (RFC 5280), of about a kilobyte each.

use crate::inputs::kept;
use yasna::models::{ObjectIdentifier, UTCTime};
use yasna::{construct_der, DERWriter, DERWriterSeq, Tag};

pub const CERTIFICATES: usize = 150;

const SHA256_WITH_RSA: &[u64] = &[1, 2, 840, 113_549, 1, 1, 11];

const RSA: &[u64] = &[1, 2, 840, 113_549, 1, 1, 1];

// Of each attribute of a name the last component, after 2.5.4, and the text.
const SUBJECT: [(u64, &str); 4] = [
    (6, "NL"),
    (10, "Example Organisation"),
    (11, "Department of Examples"),
    (3, "www.example.org"),
];

const ISSUER: [(u64, &str); 3] = [
    (6, "NL"),
    (10, "Example Authority"),
    (3, "Example Authority R3"),
];

// Of each extension the last component, after 2.5.29, whether it is critical, and how many octets it has.
const EXTENSIONS: [(u64, bool, usize); 8] = [
    (14, false, 22),
    (15, true, 4),
    (17, false, 60),
    (19, true, 2),
    (31, false, 50),
    (32, false, 74),
    (35, false, 24),
    (37, false, 22),
];

/// A SEQUENCE of certificates.
pub fn list() -> &'static [u8] {
    kept(construct_der(|writer| {
        writer.write_sequence(|seq| {
            for number in 0..CERTIFICATES {
                seq.next()
                    .write_sequence(|parts| write_certificate(parts, number))
            }
        })
    }))
}

// Octets that differ from one certificate to the next.
fn octets(count: usize, number: usize) -> Vec<u8> {
    (0..count)
        .map(|place| (place * 31 + number) as u8)
        .collect()
}

fn write_certificate(parts: &mut DERWriterSeq, number: usize) {
    parts.next().write_sequence(|body| write_body(body, number));
    write_algorithm(parts.next(), SHA256_WITH_RSA);
    parts.next().write_bitvec_bytes(&octets(256, number), 2048);
}

fn write_body(body: &mut DERWriterSeq, number: usize) {
    body.next()
        .write_tagged(Tag::context(0), |writer| writer.write_u8(2));
    body.next().write_bigint_bytes(&octets(16, number), true);
    write_algorithm(body.next(), SHA256_WITH_RSA);
    write_name(body.next(), &ISSUER);
    body.next().write_sequence(|times| {
        write_time(times.next(), b"240101000000Z");
        write_time(times.next(), b"340101000000Z");
    });
    write_name(body.next(), &SUBJECT);
    body.next().write_sequence(|key| {
        write_algorithm(key.next(), RSA);
        key.next().write_bitvec_bytes(&octets(270, number), 2160);
    });
    body.next().write_tagged(Tag::context(3), |writer| {
        writer.write_sequence(|extensions| {
            for extension in &EXTENSIONS {
                write_extension(extensions.next(), extension, number)
            }
        })
    })
}

fn write_algorithm(writer: DERWriter, components: &[u64]) {
    writer.write_sequence(|parts| {
        parts
            .next()
            .write_oid(&ObjectIdentifier::from_slice(components));
        parts.next().write_null();
    })
}

fn write_name(writer: DERWriter, attributes: &[(u64, &str)]) {
    writer.write_sequence(|name| {
        for (component, text) in attributes {
            name.next().write_set_of(|set| {
                set.next().write_sequence(|attribute| {
                    let kind = ObjectIdentifier::from_slice(&[2, 5, 4, *component]);
                    attribute.next().write_oid(&kind);
                    attribute.next().write_printable_string(text);
                })
            })
        }
    })
}

fn write_time(writer: DERWriter, text: &[u8]) {
    writer.write_utctime(&UTCTime::parse(text).expect("the text is a time"))
}

fn write_extension(writer: DERWriter, extension: &(u64, bool, usize), number: usize) {
    let (component, critical, size) = extension;
    writer.write_sequence(|parts| {
        let kind = ObjectIdentifier::from_slice(&[2, 5, 29, *component]);
        parts.next().write_oid(&kind);
        if *critical {
            parts.next().write_bool(true);
        }
        parts.next().write_bytes(&octets(*size, number));
    })
}
