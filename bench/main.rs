//! Times of the library beside the Rust it is ported from.
mod cases;
mod ffi;
#[allow(dead_code)]
#[path = "../rust/src/ffi.rs"]
mod raw;
mod registers;
#[path = "../oracle/rng.rs"]
mod rng;
mod sheets;
mod timing;

fn main() {
    let title = std::env::args().nth(1).unwrap_or_default();
    timing::head(&title);
    for n in [1_000, 1_000_000] {
        cases::scans(n);
        cases::walks(n);
        cases::counts(n);
        cases::set_operations(n);
        cases::moves(n);
        cases::regions(n);
        cases::lists(n);
    }
    registers::times();
    sheets::times();
}
