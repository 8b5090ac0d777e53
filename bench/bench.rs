//! Times the proved operations beside Rust's standard library; bench/run compiles and runs it. Each row's answers are compared before it is timed.
//!
//!     bench [--quick | --agree] [NAME]    rows whose name begins with NAME; quick: short texts and short runs; agree: nothing is timed
mod compare;
mod exports;
mod of_decimal;
#[cfg(not(faces_only))]
mod of_integers;
mod of_slices;
mod of_text;
mod random;
mod texts;

use compare::{Bench, Effort};

fn main() {
    let (flags, names): (Vec<String>, Vec<String>) = std::env::args().skip(1).partition(|word| word.starts_with("--"));
    let effort = match flags.iter().map(String::as_str).collect::<Vec<_>>()[..] {
        [] => Effort::Full,
        ["--quick"] => Effort::Quick,
        ["--agree"] => Effort::Agree,
        _ => usage(),
    };
    if names.len() > 1 {
        usage();
    }
    let mut bench = Bench::new(effort, names.into_iter().next().unwrap_or_default());
    of_text::rows(&mut bench);
    of_slices::rows(&mut bench);
    #[cfg(not(faces_only))]
    of_integers::rows(&mut bench);
    of_decimal::rows(&mut bench);
    std::process::exit(bench.end());
}

fn usage() -> ! {
    eprintln!("usage: bench [--quick | --agree] [NAME]");
    std::process::exit(2);
}
