//! The static library's functions as include/tdload.h declares them.

#[repr(C)]
pub struct Answer {
    pub refusal: u32,
    pub place: u32,
    pub index: u64,
    pub pages: u64,
    pub hob_length: u64,
    pub blocks: u64,
    pub measurement: [u8; 48],
}

#[repr(C)]
pub struct View {
    pub slice: u32,
    pub offset: u32,
    pub length: u32,
}

#[repr(C)]
pub struct State {
    pub hash: [u64; 8],
    pub done: u64,
    pub total: u64,
    pub image_length: u64,
    pub plan_length: u64,
    pub refusal: u32,
    pub place: u32,
    pub index: u64,
}

#[repr(C)]
pub struct Begun {
    pub answer: Answer,
    pub state: State,
}

#[repr(C)]
pub struct Turned {
    pub state: State,
    pub refusal: u32,
    pub place: u32,
    pub index: u64,
    pub blocks: u64,
    pub measurement: [u8; 48],
}

/// A launch or a start: both are lent the same.
pub type Launching<T> = unsafe extern "C" fn(
    image: *const u8,
    image_length: usize,
    map: *const u8,
    map_length: usize,
    width: u32,
    plan: *mut u8,
    plan_length: usize,
    hob: *mut u8,
    hob_length: usize,
) -> T;

#[link(name = "tdload", kind = "static")]
extern "C" {
    pub fn tdload_launch(
        image: *const u8,
        image_length: usize,
        map: *const u8,
        map_length: usize,
        width: u32,
        plan: *mut u8,
        plan_length: usize,
        hob: *mut u8,
        hob_length: usize,
    ) -> Answer;

    pub fn tdload_begin(
        image: *const u8,
        image_length: usize,
        map: *const u8,
        map_length: usize,
        width: u32,
        plan: *mut u8,
        plan_length: usize,
        hob: *mut u8,
        hob_length: usize,
    ) -> Begun;

    pub fn tdload_turn(
        state: State,
        image: *const u8,
        image_length: usize,
        plan: *const u8,
        plan_length: usize,
        quota: u64,
    ) -> Turned;

    pub fn tdload_view(
        image: *const u8,
        image_length: usize,
        hob: *const u8,
        hob_length: usize,
        offset: u32,
        length: u16,
        sort: u8,
    ) -> View;

    pub fn tdload_sha384(message: *const u8, length: usize, digest: *mut u8);
}
