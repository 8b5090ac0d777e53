//! The crate's own tests, as one program: link-time optimisation takes its time once and not for each.
#[path = "../../../bindings/rust/tests/decimal.rs"]
mod decimal;
#[path = "../../../bindings/rust/tests/integers.rs"]
mod integers;
#[path = "../../../bindings/rust/tests/slices.rs"]
mod slices;
#[path = "../../../bindings/rust/tests/text.rs"]
mod text;
