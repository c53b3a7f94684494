//! The functions of `yasna_bench`, over slices.

mod linked {
    extern "C" {
        pub fn yasna_decode_pair(bytes: *const u8, length: usize, der: bool) -> u64;
        pub fn yasna_read_integers(bytes: *const u8, length: usize, count: usize, der: bool)
            -> u64;
        pub fn yasna_list_integers(bytes: *const u8, length: usize, der: bool) -> u64;
        pub fn yasna_read_pairs(bytes: *const u8, length: usize, count: usize, der: bool) -> u64;
        pub fn yasna_read_options(bytes: *const u8, length: usize, count: usize, der: bool) -> u64;
        pub fn yasna_read_tagged(bytes: *const u8, length: usize, count: usize, der: bool) -> u64;
        pub fn yasna_read_big_integer(bytes: *const u8, length: usize, der: bool) -> u64;
        pub fn yasna_read_nested(bytes: *const u8, length: usize, depth: usize, der: bool) -> u64;
        pub fn yasna_encode_pair(number: i64, flag: bool) -> u64;
        pub fn yasna_write_integers(numbers: *const i64, length: usize) -> u64;
        pub fn yasna_write_pairs(count: u32, depth: usize) -> u64;
        pub fn yasna_write_pairs_cer(count: u32) -> u64;
        pub fn yasna_write_nested(contents: *const u8, length: usize, depth: usize) -> u64;
        pub fn yasna_read_bytes(bytes: *const u8, length: usize, der: bool) -> u64;
        pub fn yasna_read_bytes_cer(bytes: *const u8, length: usize) -> u64;
        pub fn yasna_write_bytes(contents: *const u8, length: usize) -> u64;
        pub fn yasna_write_bytes_cer(contents: *const u8, length: usize) -> u64;
        pub fn yasna_read_texts(bytes: *const u8, length: usize, count: usize, der: bool) -> u64;
        pub fn yasna_write_texts(text: *const u8, length: usize, count: usize) -> u64;
        pub fn yasna_read_identifiers(
            bytes: *const u8,
            length: usize,
            count: usize,
            der: bool,
        ) -> u64;
        pub fn yasna_write_identifiers(components: *const u64, length: usize, count: usize) -> u64;
        pub fn yasna_read_set_of(bytes: *const u8, length: usize, der: bool) -> u64;
        pub fn yasna_write_set_of(numbers: *const i64, length: usize) -> u64;
        pub fn yasna_write_pair_values(bytes: *const u8, length: usize, times: u64) -> u64;
        pub fn yasna_write_set_values(bytes: *const u8, length: usize, times: u64) -> u64;
        pub fn yasna_ten_explicit(bytes: *const u8, length: usize) -> u64;
        pub fn yasna_ten_implicit(bytes: *const u8, length: usize) -> u64;
        pub fn yasna_ten_explicit_looped(bytes: *const u8, length: usize) -> u64;
        pub fn yasna_ten_implicit_looped(bytes: *const u8, length: usize) -> u64;
        pub fn yasna_read_text(bytes: *const u8, length: usize) -> u64;
        pub fn yasna_read_bmp(bytes: *const u8, length: usize) -> u64;
        pub fn yasna_write_bmp(bytes: *const u8, length: usize) -> u64;
        pub fn yasna_read_certificates(bytes: *const u8, length: usize) -> u64;
        pub fn yasna_rewrite_certificates(bytes: *const u8, length: usize) -> u64;
        pub fn yasna_write_certificates(bytes: *const u8, length: usize, times: u64) -> u64;
        pub fn yasna_read_raw(bytes: *const u8, length: usize, count: usize, der: bool) -> u64;
        pub fn yasna_parse_utc_times(texts: *const u8, length: usize) -> u64;
        pub fn yasna_parse_generalized_times(texts: *const u8, length: usize) -> u64;
        pub fn yasna_print_utc_times(text: *const u8, length: usize, count: usize) -> u64;
        pub fn yasna_print_generalized_times(text: *const u8, length: usize, count: usize) -> u64;
        pub fn yasna_read_utc_times(
            bytes: *const u8,
            length: usize,
            count: usize,
            der: bool,
        ) -> u64;
        pub fn yasna_read_generalized_times(
            bytes: *const u8,
            length: usize,
            count: usize,
            der: bool,
        ) -> u64;
        pub fn yasna_write_utc_times(text: *const u8, length: usize, count: usize) -> u64;
        pub fn yasna_write_generalized_times(text: *const u8, length: usize, count: usize) -> u64;
    }
}

// SAFETY, of each call below: pointer and length are those of a slice, which the function only reads.

pub fn decode_pair(bytes: &[u8], der: bool) -> u64 {
    unsafe { linked::yasna_decode_pair(bytes.as_ptr(), bytes.len(), der) }
}

pub fn read_integers(bytes: &[u8], count: usize, der: bool) -> u64 {
    unsafe { linked::yasna_read_integers(bytes.as_ptr(), bytes.len(), count, der) }
}

pub fn list_integers(bytes: &[u8], der: bool) -> u64 {
    unsafe { linked::yasna_list_integers(bytes.as_ptr(), bytes.len(), der) }
}

pub fn read_pairs(bytes: &[u8], count: usize, der: bool) -> u64 {
    unsafe { linked::yasna_read_pairs(bytes.as_ptr(), bytes.len(), count, der) }
}

pub fn read_options(bytes: &[u8], count: usize, der: bool) -> u64 {
    unsafe { linked::yasna_read_options(bytes.as_ptr(), bytes.len(), count, der) }
}

pub fn read_tagged(bytes: &[u8], count: usize, der: bool) -> u64 {
    unsafe { linked::yasna_read_tagged(bytes.as_ptr(), bytes.len(), count, der) }
}

pub fn read_big_integer(bytes: &[u8], der: bool) -> u64 {
    unsafe { linked::yasna_read_big_integer(bytes.as_ptr(), bytes.len(), der) }
}

pub fn read_nest(bytes: &[u8], depth: usize, der: bool) -> u64 {
    unsafe { linked::yasna_read_nested(bytes.as_ptr(), bytes.len(), depth, der) }
}

pub fn encode_pair(number: i64, flag: bool) -> u64 {
    unsafe { linked::yasna_encode_pair(number, flag) }
}

pub fn write_integers(numbers: &[i64]) -> u64 {
    unsafe { linked::yasna_write_integers(numbers.as_ptr(), numbers.len()) }
}

pub fn write_pairs(count: u32, depth: usize) -> u64 {
    unsafe { linked::yasna_write_pairs(count, depth) }
}

pub fn write_pairs_cer(count: u32) -> u64 {
    unsafe { linked::yasna_write_pairs_cer(count) }
}

pub fn write_nest(contents: &[u8], depth: usize) -> u64 {
    unsafe { linked::yasna_write_nested(contents.as_ptr(), contents.len(), depth) }
}

pub fn read_bytes(bytes: &[u8], der: bool) -> u64 {
    unsafe { linked::yasna_read_bytes(bytes.as_ptr(), bytes.len(), der) }
}

pub fn read_bytes_cer(bytes: &[u8]) -> u64 {
    unsafe { linked::yasna_read_bytes_cer(bytes.as_ptr(), bytes.len()) }
}

pub fn write_bytes(contents: &[u8]) -> u64 {
    unsafe { linked::yasna_write_bytes(contents.as_ptr(), contents.len()) }
}

pub fn write_bytes_cer(contents: &[u8]) -> u64 {
    unsafe { linked::yasna_write_bytes_cer(contents.as_ptr(), contents.len()) }
}

pub fn read_texts(bytes: &[u8], count: usize, der: bool) -> u64 {
    unsafe { linked::yasna_read_texts(bytes.as_ptr(), bytes.len(), count, der) }
}

pub fn write_texts(text: &str, count: usize) -> u64 {
    unsafe { linked::yasna_write_texts(text.as_ptr(), text.len(), count) }
}

pub fn read_identifiers(bytes: &[u8], count: usize, der: bool) -> u64 {
    unsafe { linked::yasna_read_identifiers(bytes.as_ptr(), bytes.len(), count, der) }
}

pub fn write_identifiers(components: &[u64], count: usize) -> u64 {
    unsafe { linked::yasna_write_identifiers(components.as_ptr(), components.len(), count) }
}

pub fn read_set_of(bytes: &[u8], der: bool) -> u64 {
    unsafe { linked::yasna_read_set_of(bytes.as_ptr(), bytes.len(), der) }
}

pub fn write_set_of(numbers: &[i64]) -> u64 {
    unsafe { linked::yasna_write_set_of(numbers.as_ptr(), numbers.len()) }
}

pub fn write_pair_values(bytes: &[u8], times: u64) -> u64 {
    unsafe { linked::yasna_write_pair_values(bytes.as_ptr(), bytes.len(), times) }
}

pub fn write_set_values(bytes: &[u8], times: u64) -> u64 {
    unsafe { linked::yasna_write_set_values(bytes.as_ptr(), bytes.len(), times) }
}

pub fn read_raw(bytes: &[u8], count: usize, der: bool) -> u64 {
    unsafe { linked::yasna_read_raw(bytes.as_ptr(), bytes.len(), count, der) }
}

pub fn parse_utc_times(texts: &[u8]) -> u64 {
    unsafe { linked::yasna_parse_utc_times(texts.as_ptr(), texts.len()) }
}

pub fn print_utc_times(text: &[u8], count: usize) -> u64 {
    unsafe { linked::yasna_print_utc_times(text.as_ptr(), text.len(), count) }
}

pub fn read_utc_times(bytes: &[u8], count: usize, der: bool) -> u64 {
    unsafe { linked::yasna_read_utc_times(bytes.as_ptr(), bytes.len(), count, der) }
}

pub fn write_utc_times(text: &[u8], count: usize) -> u64 {
    unsafe { linked::yasna_write_utc_times(text.as_ptr(), text.len(), count) }
}

pub fn parse_generalized_times(texts: &[u8]) -> u64 {
    unsafe { linked::yasna_parse_generalized_times(texts.as_ptr(), texts.len()) }
}

pub fn print_generalized_times(text: &[u8], count: usize) -> u64 {
    unsafe { linked::yasna_print_generalized_times(text.as_ptr(), text.len(), count) }
}

pub fn read_generalized_times(bytes: &[u8], count: usize, der: bool) -> u64 {
    unsafe { linked::yasna_read_generalized_times(bytes.as_ptr(), bytes.len(), count, der) }
}

pub fn write_generalized_times(text: &[u8], count: usize) -> u64 {
    unsafe { linked::yasna_write_generalized_times(text.as_ptr(), text.len(), count) }
}

pub fn read_certificates(bytes: &[u8]) -> u64 {
    unsafe { linked::yasna_read_certificates(bytes.as_ptr(), bytes.len()) }
}

pub fn rewrite_certificates(bytes: &[u8]) -> u64 {
    unsafe { linked::yasna_rewrite_certificates(bytes.as_ptr(), bytes.len()) }
}

pub fn write_certificates(bytes: &[u8], times: u64) -> u64 {
    unsafe { linked::yasna_write_certificates(bytes.as_ptr(), bytes.len(), times) }
}

pub fn ten_explicit(bytes: &[u8]) -> u64 {
    unsafe { linked::yasna_ten_explicit(bytes.as_ptr(), bytes.len()) }
}

pub fn ten_implicit(bytes: &[u8]) -> u64 {
    unsafe { linked::yasna_ten_implicit(bytes.as_ptr(), bytes.len()) }
}

pub fn ten_explicit_looped(bytes: &[u8]) -> u64 {
    unsafe { linked::yasna_ten_explicit_looped(bytes.as_ptr(), bytes.len()) }
}

pub fn ten_implicit_looped(bytes: &[u8]) -> u64 {
    unsafe { linked::yasna_ten_implicit_looped(bytes.as_ptr(), bytes.len()) }
}

pub fn read_text(bytes: &[u8]) -> u64 {
    unsafe { linked::yasna_read_text(bytes.as_ptr(), bytes.len()) }
}

pub fn read_bmp(bytes: &[u8]) -> u64 {
    unsafe { linked::yasna_read_bmp(bytes.as_ptr(), bytes.len()) }
}

pub fn write_bmp(text: &str) -> u64 {
    unsafe { linked::yasna_write_bmp(text.as_ptr(), text.len()) }
}
