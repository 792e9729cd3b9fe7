//! Which of the engines that are built together runs on this thread.

use std::cell::Cell;

thread_local! {
    static CHOSEN: Cell<usize> = const { Cell::new(0) };
}

pub fn chosen() -> usize {
    CHOSEN.with(Cell::get)
}

/// Goes back to the right engine at its end, which may be a panic's.
struct Back;

impl Drop for Back {
    fn drop(&mut self) {
        CHOSEN.with(|chosen| chosen.set(0));
    }
}

pub fn with<T>(number: usize, call: impl FnOnce() -> T) -> T {
    CHOSEN.with(|chosen| chosen.set(number));
    let _back = Back;
    call()
}
