//! Counts the calls, measures the time that they take and catches their panics.

use std::any::Any;
use std::panic::{catch_unwind, set_hook, take_hook, AssertUnwindSafe};
use std::sync::atomic::{AtomicBool, Ordering};
use std::time::Duration;

extern "C" {
    fn clock() -> i64;
}

static IN_CALL: AtomicBool = AtomicBool::new(false);

/// A panic inside a call is an answer and not shown; one of the driver's own is.
pub fn silence_caught_panics() {
    let usual = take_hook();
    set_hook(Box::new(move |panic| {
        if !IN_CALL.load(Ordering::Relaxed) {
            usual(panic)
        }
    }));
}

fn message(panic: Box<dyn Any + Send>) -> String {
    let text = match panic.downcast::<String>() {
        Ok(text) => *text,
        Err(panic) => match panic.downcast_ref::<&str>() {
            Some(text) => text.to_string(),
            None => String::new(),
        },
    };
    text.replace(['\n', '\r'], " ")
}

#[derive(Default)]
pub struct Clock {
    pub calls: u64,
    pub spent: Duration,
}

impl Clock {
    /// Runs one call, timed; `Err` holds the message of its panic.
    pub fn call<T>(&mut self, act: impl FnOnce() -> T) -> Result<T, String> {
        self.calls += 1;
        IN_CALL.store(true, Ordering::Relaxed);
        let start = unsafe { clock() };
        let result = catch_unwind(AssertUnwindSafe(act));
        self.spent += Duration::from_micros((unsafe { clock() } - start) as u64);
        IN_CALL.store(false, Ordering::Relaxed);
        result.map_err(message)
    }
}
