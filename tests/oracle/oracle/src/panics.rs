//! Whether the Rust panics, and where.

use std::cell::RefCell;
use std::panic;
use std::panic::AssertUnwindSafe;

thread_local! {
    static PLACE: RefCell<Option<String>> = const { RefCell::new(None) };
}

/// What was seen, in words.
pub fn doing(place: &Option<String>) -> String {
    place.as_ref().map_or("goes on".to_owned(), |place| format!("panics at {place}"))
}

/// Where `work` panics, if it does: file, line and column. Nothing of it is printed.
pub fn place(work: impl FnOnce()) -> Option<String> {
    let hook = panic::take_hook();
    panic::set_hook(Box::new(|panicked| {
        let place = panicked.location().map(ToString::to_string);
        PLACE.set(Some(place.unwrap_or_default()));
    }));
    let done = panic::catch_unwind(AssertUnwindSafe(work));
    panic::set_hook(hook);
    done.err().and(PLACE.take())
}
