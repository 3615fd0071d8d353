//! Recursion over terms goes as deep as the terms nest, so the calls run on a
//! thread with a large stack.

use std::cell::Cell;
use std::thread;

const STACK_BYTES: usize = 256 << 20;

thread_local! {
    static IS_LARGE: Cell<bool> = const { Cell::new(false) };
}

/// Runs `work` on a large stack: on this thread if it already has one, else
/// on a new thread. A caller with many calls to make may wrap them all once.
pub fn on_large_stack<T: Send>(work: impl FnOnce() -> T + Send) -> T {
    if IS_LARGE.with(Cell::get) {
        return work();
    }
    thread::scope(|scope| {
        let thread = thread::Builder::new()
            .stack_size(STACK_BYTES)
            .spawn_scoped(scope, || {
                IS_LARGE.with(|flag| flag.set(true));
                work()
            });
        match thread.expect("a thread can be started").join() {
            Ok(result) => result,
            Err(panic) => std::panic::resume_unwind(panic),
        }
    })
}
