//! Panics of the crate are caught and kept as words; any other panic is the driver's own and is printed as usual.

use std::cell::{Cell, RefCell};
use std::panic::{catch_unwind, set_hook, take_hook, AssertUnwindSafe};

thread_local! {
    static CATCHING: Cell<bool> = const { Cell::new(false) };
    static WORDS: RefCell<String> = const { RefCell::new(String::new()) };
}

/// Once, before the first `caught`.
pub fn prepare() {
    let usual = take_hook();
    set_hook(Box::new(move |panic| {
        if CATCHING.get() {
            WORDS.set(panic.to_string());
        } else {
            usual(panic);
        }
    }));
}

/// What was asked, or the panic's words.
pub fn caught<T>(ask: impl FnOnce() -> T) -> Result<T, String> {
    CATCHING.set(true);
    let answer = catch_unwind(AssertUnwindSafe(ask));
    CATCHING.set(false);
    answer.map_err(|_| WORDS.take().replace('\n', " "))
}
