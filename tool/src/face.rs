//! The functions of the proved archive that the library calls, as they stand in include/sailmortar.h.

// `sailmortar_convert` is `sailmortar_convert_piece` without the place, which the library's refusals tell.
extern "C" {
    pub fn sailmortar_convert_piece(
        decls: *const u8,
        decls_length: usize,
        from: u32,
        to: u32,
        input: *const u8,
        input_length: usize,
        out: *mut u8,
        out_length: usize,
        answer: *mut [u64; 6],
    );
    pub fn sailmortar_base64_decode(input: *const u8, input_length: usize, out: *mut u8, out_length: usize, answer: *mut [u64; 5]);
    pub fn sailmortar_base64_encode(input: *const u8, input_length: usize, out: *mut u8, out_length: usize, answer: *mut [u64; 5]);
    pub fn sailmortar_declare(decls: *const u8, decls_length: usize, answer: *mut [u64; 5]);
    pub fn sailmortar_index(
        decls: *const u8,
        decls_length: usize,
        from: u32,
        input: *const u8,
        input_length: usize,
        index: *mut u32,
        index_length: usize,
        answer: *mut [u64; 5],
    );
    pub fn sailmortar_fetch(
        decls: *const u8,
        decls_length: usize,
        from: u32,
        input: *const u8,
        input_length: usize,
        index: *const u32,
        index_length: usize,
        rows: u64,
        row: u64,
        out: *mut u8,
        out_length: usize,
        answer: *mut [u64; 5],
    );
    pub fn sailmortar_compare(
        decls: *const u8,
        decls_length: usize,
        from_first: u32,
        first: *const u8,
        first_length: usize,
        from_second: u32,
        second: *const u8,
        second_length: usize,
        places: *mut u32,
        places_length: usize,
        answer: *mut [u64; 8],
    );
    pub fn sailmortar_join(length: u64, room: u64, parts: *const u64, parts_length: usize, joined: *mut [u64; 8]);
}
