//! Panics of the Rust are answers: they are caught, and say nothing on standard error.
use std::any::Any;
use std::cell::Cell;
use std::panic::{AssertUnwindSafe, catch_unwind, set_hook, take_hook};
use std::sync::Once;

thread_local! {
    static SILENT: Cell<bool> = const { Cell::new(false) };
}

/// Does it; where it panics, the panic's text on one line.
pub fn caught(what: impl FnOnce()) -> Result<(), String> {
    static HOOK: Once = Once::new();
    HOOK.call_once(|| {
        let others = take_hook();
        set_hook(Box::new(move |panic| {
            if !SILENT.get() {
                others(panic)
            }
        }));
    });
    SILENT.set(true);
    let done = catch_unwind(AssertUnwindSafe(what));
    SILENT.set(false);
    done.map_err(|panic| text(&*panic).replace('\n', " "))
}

fn text(panic: &(dyn Any + Send)) -> &str {
    match (panic.downcast_ref::<String>(), panic.downcast_ref::<&str>()) {
        (Some(text), _) => text,
        (None, Some(text)) => text,
        (None, None) => "-",
    }
}
