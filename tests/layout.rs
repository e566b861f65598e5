//! Prints the layout of the binding's structs, which are private to it: hence the binding's own file
//! is taken in here. tests/layout compares.

use std::mem::{align_of, size_of, MaybeUninit};

#[allow(dead_code)] // the functions are not called here
#[path = "../bindings/rust/src/raw.rs"]
mod raw;

fn size_behind<T>(_: *const T) -> usize {
    size_of::<T>()
}

macro_rules! print_layout {
    ($name:literal, $kind:ty: $($field:ident)+) => {
        println!("{} size {} alignment {}", $name, size_of::<$kind>(), align_of::<$kind>());
        let place = MaybeUninit::<$kind>::uninit();
        let start = place.as_ptr();
        $(
            // SAFETY: only the field's address is taken; nothing is read.
            let field = unsafe { std::ptr::addr_of!((*start).$field) };
            let offset = field as usize - start as usize;
            println!("{} {} offset {offset} size {}", $name, stringify!($field), size_behind(field));
        )+
    };
}

fn main() {
    print_layout!("tdload_answer", raw::Answer: refusal place index pages hob_length blocks measurement);
    print_layout!("tdload_state", raw::State: hash done total image_length plan_length refusal place index);
    print_layout!("tdload_begun", raw::Begun: answer state);
    print_layout!("tdload_turned", raw::Turned: state refusal place index blocks measurement);
    print_layout!("tdload_view", raw::View: slice offset length);
}
