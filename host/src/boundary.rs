//! The C interface, as `include/tronalhet.h` declares it.
//!
//! Its duties: a pointer and the number after it are one buffer; one that is written to overlaps no other
//! that is lent with it; nothing changes a buffer while it is lent. A Rust slice, shared or not, keeps all three.

#[repr(C)]
pub struct Answer {
    pub refusal: u32,
    pub n: usize,
}

#[repr(C)]
pub struct CodedAnswer {
    pub refusal: u32,
    pub left: u32,
    pub right: u32,
    pub n: usize,
}

extern "C" {
    pub fn tronalhet_read(
        file: *const u8,
        file_bytes: usize,
        record: *mut u32,
        record_words: usize,
        titles: *mut u8,
        title_bytes: usize,
    ) -> u32;

    pub fn tronalhet_sound(file: *const u8, file_bytes: usize, start: *mut usize, starts: usize) -> Answer;

    pub fn tronalhet_write(
        record: *const u32,
        record_words: usize,
        titles: *const u8,
        title_bytes: usize,
        sound: *const u8,
        sound_bytes: usize,
        out: *mut u8,
        out_bytes: usize,
    ) -> Answer;

    pub fn tronalhet_decode(file: *const u8, file_bytes: usize, out: *mut i16, out_samples: usize) -> Answer;

    pub fn tronalhet_decode_block(
        file: *const u8,
        file_bytes: usize,
        block: u32,
        out: *mut i16,
        out_samples: usize,
    ) -> Answer;

    pub fn tronalhet_encode(
        sound: *const i16,
        sound_samples: usize,
        channels: u16,
        align: u16,
        out: *mut u8,
        out_bytes: usize,
    ) -> CodedAnswer;

    pub fn tronalhet_empty(channels: u16, rate: u32, out: *mut u8, out_bytes: usize) -> Answer;

    pub fn tronalhet_add(
        side: *const u8,
        side_bytes: usize,
        song: *const u8,
        song_bytes: usize,
        number: u32,
        limit: u32,
        out: *mut u8,
        out_bytes: usize,
    ) -> Answer;
}
