//! The exports as `canon_text.h` declares them.

#[repr(C)]
pub struct Answer {
    pub ok: bool,
    pub number: u64,
}

#[repr(C)]
pub struct Sizes {
    pub src_read: u64,
    pub dst_written: u64,
}

#[repr(C)]
pub struct Pass {
    pub ok: bool,
    pub src_read: u64,
    pub dst_written: u64,
}

extern "C" {
    pub fn canon_utf8_to_utf8(src: *const u8, len: usize, dst: *mut u8, room: usize) -> Answer;
    pub fn canon_utf16_to_utf16(src: *const u16, len: usize, dst: *mut u16, room: usize) -> Answer;
    pub fn canon_latin1_to_latin1(src: *const u8, len: usize, dst: *mut u8, room: usize);
    pub fn canon_latin1_to_utf16(src: *const u8, len: usize, dst: *mut u16, room: usize);
    pub fn canon_utf8_to_utf16(src: *const u8, len: usize, dst: *mut u16, room: usize) -> Answer;
    pub fn canon_utf16_to_utf8(
        src: *const u16,
        len: usize,
        dst: *mut u8,
        room: usize,
        first_pass: bool,
    ) -> Pass;
    pub fn canon_latin1_to_utf8(
        src: *const u8,
        len: usize,
        dst: *mut u8,
        room: usize,
        first_pass: bool,
    ) -> Sizes;
    pub fn canon_utf8_to_latin1(src: *const u8, len: usize, dst: *mut u8, room: usize) -> Sizes;
    pub fn canon_utf16_to_latin1(src: *const u16, len: usize, dst: *mut u8, room: usize) -> Sizes;
    pub fn canon_utf16_to_compact_probably_utf16(
        src: *const u16,
        len: usize,
        dst: *mut u8,
        room: usize,
    ) -> Answer;
    pub fn canon_utf8_to_compact_utf16(
        src: *const u8,
        len: usize,
        dst: *mut u8,
        room: usize,
        latin1_bytes_so_far: u64,
    ) -> Answer;
    pub fn canon_utf16_to_compact_utf16(
        src: *const u16,
        len: usize,
        dst: *mut u8,
        room: usize,
        latin1_bytes_so_far: u64,
    ) -> Answer;
    pub fn canon_inflate_latin1_bytes(dst: *mut u8, room: usize, latin1_bytes_so_far: u64);
}
