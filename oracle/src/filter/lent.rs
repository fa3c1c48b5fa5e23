//! The values that the changed lines of the lent copies read: set by the caller just before a call. And the states that
//! turbulence tells.

use std::cell::{Cell, RefCell};

thread_local! {
    static PAIR: Cell<(f32, f32)> = const { Cell::new((1.0, 0.0)) };
    static DIRECTION: Cell<(f32, f32, f32)> = const { Cell::new((0.0, 0.0, 1.0)) };
    static STATES: RefCell<Vec<i32>> = const { RefCell::new(vec![]) };
}

/// Lends HueRotate's cosine and sine to the next calls on this thread.
pub fn lend_pair(cosine: f32, sine: f32) {
    PAIR.set((cosine, sine));
}

/// Lends a distant light's direction to the next calls on this thread.
pub fn lend_direction(x: f32, y: f32, z: f32) {
    DIRECTION.set((x, y, z));
}

pub fn cosine() -> f32 {
    PAIR.get().0
}

pub fn sine() -> f32 {
    PAIR.get().1
}

pub fn x() -> f32 {
    DIRECTION.get().0
}

pub fn y() -> f32 {
    DIRECTION.get().1
}

pub fn z() -> f32 {
    DIRECTION.get().2
}

pub fn tell_state(state: i32) {
    STATES.with_borrow_mut(|states| states.push(state));
}

/// The states that were told on this thread since they were last taken.
pub fn take_states() -> Vec<i32> {
    STATES.take()
}
