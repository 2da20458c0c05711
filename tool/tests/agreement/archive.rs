//! The archive's functions as C calls them: with every number of the answer, and kinds of rows that are none.

#[path = "../../src/face.rs"]
mod face;

// The one that the library does not call.
extern "C" {
    fn sailmortar_convert(
        decls: *const u8,
        decls_length: usize,
        from: u32,
        to: u32,
        input: *const u8,
        input_length: usize,
        out: *mut u8,
        out_length: usize,
        answer: *mut [u64; 5],
    );
}

/// What no number of an answer is, so that one which is not written shows.
const UNWRITTEN: u64 = u64::MAX;

type Conversion<const N: usize> = unsafe extern "C" fn(*const u8, usize, u32, u32, *const u8, usize, *mut u8, usize, *mut [u64; N]);

fn conversion<const N: usize>(call: Conversion<N>, decls: &[u8], from: u32, to: u32, input: &[u8], out: &mut [u8]) -> [u64; N] {
    let mut answer = [UNWRITTEN; N];
    // SAFETY: each pointer and length is a slice's own, and `out` and `answer` are lent to this call alone.
    unsafe { call(decls.as_ptr(), decls.len(), from, to, input.as_ptr(), input.len(), out.as_mut_ptr(), out.len(), &mut answer) };
    answer
}

pub fn convert(decls: &[u8], from: u32, to: u32, input: &[u8], out: &mut [u8]) -> [u64; 5] {
    conversion(sailmortar_convert, decls, from, to, input, out)
}

pub fn convert_piece(decls: &[u8], from: u32, to: u32, input: &[u8], out: &mut [u8]) -> [u64; 6] {
    conversion(face::sailmortar_convert_piece, decls, from, to, input, out)
}

type Base64Step = unsafe extern "C" fn(*const u8, usize, *mut u8, usize, *mut [u64; 5]);

fn base64_step(call: Base64Step, input: &[u8], out: &mut [u8]) -> [u64; 5] {
    let mut answer = [UNWRITTEN; 5];
    // SAFETY: as in `conversion`.
    unsafe { call(input.as_ptr(), input.len(), out.as_mut_ptr(), out.len(), &mut answer) };
    answer
}

pub fn base64_decode(input: &[u8], out: &mut [u8]) -> [u64; 5] {
    base64_step(face::sailmortar_base64_decode, input, out)
}

pub fn base64_encode(input: &[u8], out: &mut [u8]) -> [u64; 5] {
    base64_step(face::sailmortar_base64_encode, input, out)
}

pub fn declare(decls: &[u8]) -> [u64; 5] {
    let mut answer = [UNWRITTEN; 5];
    // SAFETY: as in `conversion`.
    unsafe { face::sailmortar_declare(decls.as_ptr(), decls.len(), &mut answer) };
    answer
}

pub fn index(decls: &[u8], from: u32, input: &[u8], index: &mut [u32]) -> [u64; 5] {
    let mut answer = [UNWRITTEN; 5];
    let (places, length) = (index.as_mut_ptr(), index.len());
    // SAFETY: as in `conversion`; `index` is lent to this call alone, too.
    unsafe { face::sailmortar_index(decls.as_ptr(), decls.len(), from, input.as_ptr(), input.len(), places, length, &mut answer) };
    answer
}

pub fn fetch(decls: &[u8], from: u32, input: &[u8], index: &[u32], rows: u64, row: u64, out: &mut [u8]) -> [u64; 5] {
    let mut answer = [UNWRITTEN; 5];
    let (text, stream, starts, room) = (decls.as_ptr(), input.as_ptr(), index.as_ptr(), out.as_mut_ptr());
    // SAFETY: as in `conversion`.
    unsafe {
        face::sailmortar_fetch(text, decls.len(), from, stream, input.len(), starts, index.len(), rows, row, room, out.len(), &mut answer);
    }
    answer
}

pub fn compare(decls: &[u8], from: [u32; 2], [first, second]: [&[u8]; 2], places: &mut [u32]) -> [u64; 8] {
    let mut answer = [UNWRITTEN; 8];
    let (text, one, other, room) = (decls.as_ptr(), first.as_ptr(), second.as_ptr(), places.as_mut_ptr());
    let [from_first, from_second] = from;
    // SAFETY: as in `conversion`; `places` is lent to this call alone, too.
    unsafe {
        face::sailmortar_compare(
            text,
            decls.len(),
            from_first,
            one,
            first.len(),
            from_second,
            other,
            second.len(),
            room,
            places.len(),
            &mut answer,
        );
    }
    answer
}

pub fn join(length: u64, room: u64, parts: &[u64], joined: &mut [u64; 8]) {
    // SAFETY: as in `conversion`; `joined` is lent to this call alone.
    unsafe { face::sailmortar_join(length, room, parts.as_ptr(), parts.len(), joined) };
}
