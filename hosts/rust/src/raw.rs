//! The functions of `include/swartabelk.h`.

/// The type of a reply that has no value or is a refusal.
pub const NO_VALUE: u32 = 0xFFFF_FFFF;

/// The bit of an operand and of a reply's mark: known only when running.
pub const RUNNING: u32 = 0x8000_0000;

/// `swartabelk_reply`.
#[repr(C)]
pub struct Reply {
    pub refusal: u32,
    pub ty: u32,
    pub mark: u32,
    pub place: u32,
    pub used: u32,
    pub lacking: u32,
}

/// `swartabelk_spelled`.
#[repr(C)]
pub struct Spelled {
    pub refusal: u32,
    pub length: u32,
    pub place: u32,
    pub used: u32,
}

/// `swartabelk_part`.
#[repr(C)]
pub struct Part {
    pub start: usize,
    pub length: usize,
}

extern "C" {
    pub fn swartabelk_check(words: *const u32, words_len: usize, used: u32) -> Reply;
    pub fn swartabelk_enter(
        words: *mut u32,
        words_len: usize,
        used: u32,
        kind: u32,
        p: u32,
        q: u32,
        elem: u32,
    ) -> Reply;
    pub fn swartabelk_unary(words: *mut u32, words_len: usize, used: u32, op: u32, a: u32)
        -> Reply;
    pub fn swartabelk_binary(
        words: *mut u32,
        words_len: usize,
        used: u32,
        op: u32,
        a: u32,
        b: u32,
    ) -> Reply;
    pub fn swartabelk_call(
        words: *mut u32,
        words_len: usize,
        used: u32,
        profile: u32,
        name: *const u8,
        name_len: usize,
        tplt: *const u32,
        tplt_len: usize,
        args: *const u32,
        args_len: usize,
    ) -> Reply;
    pub fn swartabelk_template(
        words: *mut u32,
        words_len: usize,
        used: u32,
        head: *const u8,
        head_len: usize,
        args: *const i64,
        args_len: usize,
    ) -> Reply;
    pub fn swartabelk_sheet(
        words: *mut u32,
        words_len: usize,
        used: u32,
        profile: u32,
        sheet: *const u8,
        sheet_len: usize,
    ) -> Reply;
    pub fn swartabelk_spell(
        words: *const u32,
        words_len: usize,
        used: u32,
        ty: u32,
        out: *mut u8,
        out_len: usize,
    ) -> Spelled;
    pub fn swartabelk_call_name(sheet: *const u8, sheet_len: usize, place: usize) -> Part;
    pub fn swartabelk_why_unary(
        words: *const u32,
        words_len: usize,
        used: u32,
        op: u32,
        a: u32,
        out: *mut u8,
        out_len: usize,
    ) -> Spelled;
    pub fn swartabelk_why_binary(
        words: *const u32,
        words_len: usize,
        used: u32,
        op: u32,
        a: u32,
        b: u32,
        out: *mut u8,
        out_len: usize,
    ) -> Spelled;
    pub fn swartabelk_why_call(
        words: *const u32,
        words_len: usize,
        used: u32,
        profile: u32,
        name: *const u8,
        name_len: usize,
        tplt: *const u32,
        tplt_len: usize,
        args: *const u32,
        args_len: usize,
        out: *mut u8,
        out_len: usize,
    ) -> Spelled;
}
