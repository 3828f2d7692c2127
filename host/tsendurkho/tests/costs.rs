//! A step into the caller's buffer allocates nothing.

mod common;

use std::alloc::{GlobalAlloc, Layout, System};
use std::cell::Cell;

use common::rack;

/// The system's allocator, which also counts what this thread asks for.
struct Counting;

thread_local! {
    static ASKED: Cell<usize> = Cell::default();
}

unsafe impl GlobalAlloc for Counting {
    unsafe fn alloc(&self, layout: Layout) -> *mut u8 {
        ASKED.with(|asked| asked.set(asked.get() + 1));
        System.alloc(layout)
    }

    unsafe fn dealloc(&self, memory: *mut u8, layout: Layout) {
        System.dealloc(memory, layout);
    }
}

#[global_allocator]
static COUNTING: Counting = Counting;

/// How often some work asks for memory.
fn asked_by(work: impl FnOnce()) -> usize {
    let before = ASKED.with(Cell::get);
    work();
    ASKED.with(Cell::get) - before
}

#[test]
fn a_step_allocates_its_own_record_and_nothing_else() {
    let rack = rack(16, 5, 1_000).expect("the shape is within the limits");
    let card = rack.card(7).expect("there are sixteen cards");
    let (heard, mut next) = ([3; 16 * 25], [0; 25]);
    let (heard_bytes, mut next_bytes) = ([3; 2 * 16 * 25], [0; 2 * 25]);
    let into = asked_by(|| rack.step_into(card, &heard, &mut next).unwrap());
    let on_bytes = asked_by(|| {
        rack.step_bytes(card, &heard_bytes, &mut next_bytes)
            .unwrap()
    });
    let made = asked_by(|| drop(rack.step(card, &heard).unwrap()));
    assert_eq!((into, on_bytes, made), (0, 0, 1));
}
