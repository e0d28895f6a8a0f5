//! A model of the rules in plain Rust, to compare the proved code with. It decodes, traces and runs by whole matrices, every row formed
//! as the rules say; orders and signs are stepped only where the rules ask for that, in a paused walk.
//!
//! `model answer` reads requests and writes the line that each must give; `model make SEED COUNT` writes requests. For the guide, `model
//! fields FILE`, `model steps FILE`, `model entries FILE` and `model drawing FILE` show the plan of a plan file, given in hexadecimal,
//! `model dealing L K..` how the bits of scalars are dealt, `model blocks` how the guide's blocks begin, and `model claims` its sentences that have
//! numbers in them.
mod claims;
mod file;
mod make;
mod number;
mod plan;
mod random;
mod refusal;
mod requests;
mod run;
mod show;
mod trace;
mod walk;

use plan::Plan;
use std::io::Read;

fn answer() {
    let mut text = String::new();
    std::io::stdin()
        .read_to_string(&mut text)
        .expect("standard input is text");
    print!("{}", requests::answers(&text));
}

fn make(seed: u64, count: u64) {
    println!("{count} requests");
    for request in make::requests(seed, count) {
        println!("{}", request.written());
    }
}

/// The bytes that hexadecimal digits stand for.
fn bytes(digits: &str) -> Vec<u8> {
    let byte = |i: usize| u8::from_str_radix(&digits[i..i + 2], 16).expect("two digits");
    (0..digits.len()).step_by(2).map(byte).collect()
}

/// What shows a plan, of the plan file in hexadecimal digits.
fn show(how: fn(&Plan) -> String, digits: &str) {
    print!(
        "{}",
        how(&file::unpack(&bytes(digits)).expect("a plan file"))
    );
}

fn main() {
    let words: Vec<String> = std::env::args().skip(1).collect();
    let words: Vec<&str> = words.iter().map(String::as_str).collect();
    let number = |word: &str| word.parse::<u64>().ok();
    match words[..] {
        ["answer"] => answer(),
        ["make", seed, count] => match (number(seed), number(count)) {
            (Some(seed), Some(count)) => make(seed, count),
            _ => usage(),
        },
        ["fields", file] => print!("{}", show::fields(&bytes(file))),
        ["steps", file] => show(show::steps, file),
        ["entries", file] => show(show::entries, file),
        ["drawing", file] => show(show::drawing, file),
        ["blocks"] => println!("{}", claims::blocks().join("\n")),
        ["claims"] => println!("{}", claims::claims().join("\n")),
        ["dealing", l, ..] => {
            let numbers: Option<Vec<u64>> = words[2..].iter().map(|k| number(k)).collect();
            match (number(l), numbers) {
                (Some(l), Some(scalars)) => print!("{}", show::dealing(l as usize, &scalars)),
                _ => usage(),
            }
        }
        _ => usage(),
    }
}

fn usage() {
    eprintln!("usage: model answer <REQUESTS | make SEED COUNT | fields FILE | steps FILE | entries FILE | drawing FILE | dealing L K.. | blocks | claims");
    std::process::exit(2);
}
