//! The tables, in Markdown.
use crate::calls::{Pair, PAIRS};
use crate::timing::{time, Cell, INPUTS};

pub const SIZES: [(usize, usize); 4] = [(1, 256), (2, 256), (4, 256), (8, 576)];

/// How often it is a cell's turn, and its rounds in each turn.
const TURNS: usize = 15;
const ROUNDS: usize = 5;

/// Each call at each size.
pub fn ratios(seed: u64) {
    let mut cells: Vec<Cell> = PAIRS
        .iter()
        .flat_map(|pair| SIZES.map(|(d, l)| Cell::new(pair, d, l, seed)))
        .collect();
    time(&mut cells, TURNS, ROUNDS);
    let rounds = TURNS * ROUNDS;
    println!("Nanoseconds a call: the median of {rounds} rounds of {INPUTS} inputs from seed {seed}. The spread is the");
    println!("least and the greatest ratio of a round; the last column is the ratio of each side's fastest round, which a");
    println!("busy machine disturbs least.");
    println!();
    println!("| Call | d | l | proved | plain | proved / plain | spread | fastest |");
    println!("|---|---|---|---|---|---|---|---|");
    for cell in &cells {
        let t = cell.times();
        let (ratio, fastest) = (t.proved / t.plain, t.fastest_proved / t.fastest_plain);
        println!(
            "| {} | {} | {} | {:.0} | {:.0} | {ratio:.2} | {:.2} .. {:.2} | {fastest:.2} |",
            cell.pair.name, cell.d, cell.l, t.proved, t.plain, t.least, t.most
        );
    }
}

/// How the time of encode, decode and trace grows with l, then with d.
pub fn growth(seed: u64) {
    println!("Nanoseconds a call in the fastest round, and for each step in brackets, at d = 4:");
    println!();
    let headings = ["l = 64", "l = 128", "l = 256", "l = 512"];
    grown(headings, [64, 128, 256, 512].map(|l| (4, l)), seed, |_| 1);
    println!();
    println!("Nanoseconds a call in the fastest round, and for each step and column in brackets, at l = 256:");
    println!();
    let headings = ["d = 1", "d = 2", "d = 4", "d = 8"];
    grown(headings, [1, 2, 4, 8].map(|d| (d, 256)), seed, |d| d);
}

/// A row for each side of each call, and a column for each size. A step's time is divided by what `parts` makes of d.
fn grown(
    headings: [&str; 4],
    sizes: [(usize, usize); 4],
    seed: u64,
    parts: impl Fn(usize) -> usize,
) {
    let grows = |pair: &&Pair| ["encode", "decode", "trace"].contains(&pair.name);
    let mut cells: Vec<Cell> = PAIRS
        .iter()
        .filter(grows)
        .flat_map(|pair| sizes.map(|(d, l)| Cell::new(pair, d, l, seed)))
        .collect();
    time(&mut cells, TURNS, ROUNDS);
    println!("| Call | | {} |", headings.join(" | "));
    println!("|---|---|{}", "---|".repeat(headings.len()));
    for row in cells.chunks_exact(sizes.len()) {
        let told = |ns: f64, cell: &Cell| {
            let each = ns / (cell.l * parts(cell.d)) as f64;
            format!("{ns:.0} ({each:.1})")
        };
        let proved: Vec<String> = row
            .iter()
            .map(|c| told(c.times().fastest_proved, c))
            .collect();
        let plain: Vec<String> = row
            .iter()
            .map(|c| told(c.times().fastest_plain, c))
            .collect();
        println!("| {} | proved | {} |", row[0].pair.name, proved.join(" | "));
        println!("| | plain | {} |", plain.join(" | "));
    }
}
