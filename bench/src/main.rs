//! The proved calls measured against the same calls in plain Rust. Prints tables in Markdown.
//!
//! usage: bench same | ratios | growth | stack | count
mod calls;
mod count;
mod plain;
mod proved;
mod random;
mod same;
mod stack;
mod tables;
mod timing;

const SEED: u64 = 2020;

fn main() {
    match std::env::args().nth(1).as_deref() {
        Some("same") => same::same(SEED, 64),
        Some("ratios") => tables::ratios(SEED),
        Some("growth") => tables::growth(SEED),
        Some("stack") => stack::stack(SEED),
        Some("count") => count::count(SEED),
        _ => {
            eprintln!("usage: bench same | ratios | growth | stack | count");
            std::process::exit(2);
        }
    }
}
