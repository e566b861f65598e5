//! The C interface as include/tdload.h declares it, name by name. Nothing outside this crate sees it.
//! tests/layout compares these structs with the header's, and includes this file to do so.

/// `struct tdload_answer`.
#[repr(C)]
pub(crate) struct Answer {
    pub(crate) refusal: u32,
    pub(crate) place: u32,
    pub(crate) index: u64,
    pub(crate) pages: u64,
    pub(crate) hob_length: u64,
    pub(crate) blocks: u64,
    pub(crate) measurement: [u8; 48],
}

/// `struct tdload_state`.
#[derive(Clone, Copy, Debug, PartialEq, Eq, Hash)]
#[repr(C)]
pub(crate) struct State {
    pub(crate) hash: [u64; 8],
    pub(crate) done: u64,
    pub(crate) total: u64,
    pub(crate) image_length: u64,
    pub(crate) plan_length: u64,
    pub(crate) refusal: u32,
    pub(crate) place: u32,
    pub(crate) index: u64,
}

/// `struct tdload_begun`.
#[repr(C)]
pub(crate) struct Begun {
    pub(crate) answer: Answer,
    pub(crate) state: State,
}

/// `struct tdload_turned`.
#[repr(C)]
pub(crate) struct Turned {
    pub(crate) state: State,
    pub(crate) refusal: u32,
    pub(crate) place: u32,
    pub(crate) index: u64,
    pub(crate) blocks: u64,
    pub(crate) measurement: [u8; 48],
}

/// `struct tdload_view`.
#[repr(C)]
pub(crate) struct View {
    pub(crate) slice: u32,
    pub(crate) offset: u32,
    pub(crate) length: u32,
}

extern "C" {
    pub(crate) fn tdload_launch(
        image: *const u8,
        image_length: usize,
        map: *const u8,
        map_length: usize,
        width: u32,
        plan: *mut u8,
        plan_length: usize,
        hob: *mut u8,
        hob_length: usize,
    ) -> Answer;

    pub(crate) fn tdload_begin(
        image: *const u8,
        image_length: usize,
        map: *const u8,
        map_length: usize,
        width: u32,
        plan: *mut u8,
        plan_length: usize,
        hob: *mut u8,
        hob_length: usize,
    ) -> Begun;

    pub(crate) fn tdload_turn(
        state: State,
        image: *const u8,
        image_length: usize,
        plan: *const u8,
        plan_length: usize,
        quota: u64,
    ) -> Turned;

    pub(crate) fn tdload_view(
        image: *const u8,
        image_length: usize,
        hob: *const u8,
        hob_length: usize,
        offset: u32,
        length: u16,
        sort: u8,
    ) -> View;

    pub(crate) fn tdload_sha384(message: *const u8, length: usize, digest: *mut u8);
}
