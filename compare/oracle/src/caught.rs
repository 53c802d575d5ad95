//! Runs calls that may panic.

use std::any::Any;
use std::cell::Cell;
use std::panic::{self, AssertUnwindSafe};
use std::sync::Once;

thread_local! {
    /// Whether a panic on this thread is caught, so that it need not be reported.
    static QUIET: Cell<bool> = const { Cell::new(false) };
}

/// Runs `run` and gives its answer, or the message of its panic.
pub fn caught<T>(run: impl FnOnce() -> T) -> Result<T, String> {
    report_only_uncaught();
    let before = QUIET.replace(true);
    let answer = panic::catch_unwind(AssertUnwindSafe(run));
    QUIET.set(before);
    answer.map_err(|panic| message(&*panic))
}

/// Lets only panics that are not caught be reported on stderr.
fn report_only_uncaught() {
    static ONCE: Once = Once::new();
    ONCE.call_once(|| {
        let report = panic::take_hook();
        panic::set_hook(Box::new(move |panic| {
            if !QUIET.get() {
                report(panic);
            }
        }));
    });
}

/// The message that a panic carries.
fn message(panic: &(dyn Any + Send)) -> String {
    if let Some(text) = panic.downcast_ref::<&str>() {
        text.to_string()
    } else if let Some(text) = panic.downcast_ref::<String>() {
        text.clone()
    } else {
        "no message".into()
    }
}
