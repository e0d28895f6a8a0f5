//! A plan step by step, for the guide: matrices, how bits are dealt, the entries of a trace, and a drawing of them.
use crate::file;
use crate::number::Number;
use crate::plan::{self, operations, step, Matrix, Plan};
use crate::refusal as refuse;
use crate::trace;
use std::fmt::Write;

pub fn row_text(row: &[Number]) -> String {
    let entries: Vec<String> = row.iter().map(|n| n.word(0).to_string()).collect();
    format!("({})", entries.join(","))
}

/// The columns in which neighbouring rows differ, top to bottom.
pub fn order(matrix: &Matrix) -> Vec<usize> {
    matrix
        .windows(2)
        .map(|rows| {
            let differs = |&j: &usize| rows[0][j] != rows[1][j];
            (0..rows[0].len()).find(differs).expect("a column") + 1
        })
        .collect()
}

/// The sign of each column: + where its odd entry is one above its even one.
pub fn signs(matrix: &Matrix) -> String {
    let last = &matrix[matrix.len() - 1];
    (0..last.len())
        .map(|j| {
            if matrix[0][j].one_more() == last[j] {
                '+'
            } else {
                '-'
            }
        })
        .collect()
}

pub fn joined<T: ToString>(items: &[T]) -> String {
    let words: Vec<String> = items.iter().map(T::to_string).collect();
    words.join(" ")
}

pub fn bits_text(bits: &[bool]) -> String {
    bits.iter().map(|&b| if b { '1' } else { '0' }).collect()
}

fn state(matrix: &Matrix) -> String {
    let rows: Vec<String> = matrix.iter().map(|row| row_text(row)).collect();
    format!(
        "order {}  signs {}  rows {}",
        joined(&order(matrix)),
        signs(matrix),
        rows.join(" ")
    )
}

/// The matrix before the first step and after each.
pub fn steps(plan: &Plan) -> String {
    let mut matrix = plan.start_matrix();
    let wide = plan.d as usize;
    let mut text = format!("start {:wide$}  {}\n", "", state(&matrix));
    for s in 0..plan.l as usize {
        let bits = plan.step_bits(s);
        matrix = step(&matrix, &bits);
        writeln!(
            text,
            "{:<5} {}  {}",
            s + 1,
            bits_text(&bits),
            state(&matrix)
        )
        .expect("a string");
    }
    text
}

/// The fields of a plan file, byte by byte.
pub fn fields(file: &[u8]) -> String {
    let at = file.len() - 12;
    let d = usize::from(file[at]);
    let from = at - file::body(file).len();
    let hexadecimal = |s: &[u8]| {
        let bytes: Vec<String> = s.iter().map(|b| format!("{b:02X}")).collect();
        bytes.join(" ")
    };
    let parts = [
        ("start order", &file[from..from + d]),
        ("bits", &file[from + d..at]),
        ("d", &file[at..at + 1]),
        ("answer row", &file[at + 1..at + 2]),
        ("l", &file[at + 2..at + 4]),
        ("back distance", &file[at + 4..at + 8]),
        ("mark", &file[at + 8..]),
    ];
    let lines = parts.map(|(name, part)| format!("{name:<13}  {}\n", hexadecimal(part)));
    lines.concat()
}

/// The bits of a scalar that meet at step s: its bit s from the top, of l, and the one before it.
fn meeting(scalar: u64, l: usize, s: usize) -> (bool, bool) {
    let top = |s: usize| s > 0 && scalar >> (l - s) & 1 == 1;
    (top(s), top(s - 1))
}

/// The line of a scalar: its column, its value, its bits.
fn scalar_line(column: usize, scalar: u64, l: usize) -> String {
    let bits: Vec<bool> = (1..=l).map(|s| meeting(scalar, l, s).0).collect();
    let bits = bits_text(&bits);
    format!("column {column}  scalar {scalar}  bits {bits}\n")
}

/// The columns of an order, counted from 1.
fn counted(order: &[usize]) -> String {
    let columns: Vec<usize> = order.iter().map(|j| j + 1).collect();
    joined(&columns)
}

/// The line of a step: what meets in each column, the order after the step, the bits in that order, and the order before.
fn step_line(scalars: &[u64], l: usize, s: usize, orders: [&[usize]; 2], dealt: &[bool]) -> String {
    let meets = scalars.iter().map(|&scalar| meeting(scalar, l, s));
    let columns: Vec<String> = meets
        .map(|(own, before)| format!("{}^{}", u8::from(own), u8::from(before)))
        .collect();
    let [order, before] = orders.map(counted);
    let columns = columns.join(" ");
    let dealt = bits_text(dealt);
    format!("step {s}  columns {columns}  order {order}  dealt {dealt}  order before {before}\n")
}

/// How the bits of each step come about, from the last step to the first.
pub fn dealing(l: usize, scalars: &[u64]) -> String {
    let numbers: Vec<Number> = scalars.iter().map(|&k| Number::from_words(&[k])).collect();
    assert_eq!(
        refuse::scalar(l as u64, &numbers),
        refuse::OK,
        "scalars below 2^l"
    );
    let mut text: String = (scalars.iter().enumerate())
        .map(|(j, &scalar)| scalar_line(j + 1, scalar, l))
        .collect();
    let mut order = plan::end_order(&numbers);
    text += &format!("end order {}\n", counted(&order));
    let mut bits = Vec::new();
    for s in (1..=l).rev() {
        let dealt = plan::deal(&numbers, l, s, &order);
        let before = plan::order_before(&order, &dealt);
        text += &step_line(scalars, l, s, [&order, &before], &dealt);
        bits.insert(0, bits_text(&dealt));
        order = before;
    }
    let gap = if scalars.len() == 1 { "" } else { " " };
    let (start, bits) = (counted(&order), bits.join(gap));
    text + &format!("start order {start}  plan's bits {bits}\n")
}

/// Every entry of the trace, a line for each step.
pub fn entries(plan: &Plan) -> String {
    let mut matrix = plan.start_matrix();
    let mut text = String::new();
    for s in 0..plan.l as usize {
        let bits = plan.step_bits(s);
        write!(text, "{:<3}", s + 1).expect("a string");
        for (x, y) in operations(&bits) {
            let vector: Vec<String> = matrix[x]
                .iter()
                .zip(&matrix[y])
                .map(|(a, b)| (trace::difference(a, b) as i8).to_string())
                .collect();
            write!(text, "  {} {} ({})", x + 1, y + 1, vector.join(",")).expect("a string");
        }
        text.push('\n');
        matrix = step(&matrix, &bits);
    }
    text
}

/// The centre of a register's circle in the drawing.
fn place(step: usize, row: usize) -> (usize, usize) {
    (60 + 110 * step, 50 + 70 * row)
}

/// The lines from the registers that an operation reads, doubled where it reads one twice, and its vector where it reads two.
fn operation(s: usize, k: usize, entry: &[u8]) -> String {
    let (x, y) = place(s, k);
    let mut svg = String::new();
    for (i, row) in [entry[0], entry[1]].into_iter().enumerate() {
        let (from_x, from_y) = place(s - 1, usize::from(row) - 1);
        let shift = if entry[0] == entry[1] { 4 * i } else { 2 };
        let (from_y, y) = (from_y + shift - 2, y + shift - 2);
        svg += &format!(
            "<line x1=\"{from_x}\" y1=\"{from_y}\" x2=\"{x}\" y2=\"{y}\" stroke=\"#888\"/>\n"
        );
    }
    if entry[0] != entry[1] {
        let vector: Vec<i8> = entry[2..].iter().map(|&b| b as i8).collect();
        svg += &label(x, y + 32, &joined(&vector));
    }
    svg
}

fn label(x: usize, y: usize, text: &str) -> String {
    format!("<text x=\"{x}\" y=\"{y}\" text-anchor=\"middle\">{text}</text>\n")
}

/// The registers after s steps, under the bits that led to them; the answer is filled.
fn registers(plan: &Plan, s: usize) -> String {
    let (x, top) = place(s, 0);
    let bits = if s == 0 {
        "start".to_string()
    } else {
        bits_text(&plan.step_bits(s - 1))
    };
    let mut svg = label(x, top - 28, &bits);
    for k in 0..=plan.d as usize {
        let (x, y) = place(s, k);
        let answer = s == plan.l as usize && k + 1 == plan.row as usize;
        let fill = if answer { "#cde" } else { "#fff" };
        svg +=
            &format!("<circle cx=\"{x}\" cy=\"{y}\" r=\"15\" fill=\"{fill}\" stroke=\"#000\"/>\n");
        svg += &label(x, y + 5, &(k + 1).to_string());
    }
    svg
}

/// The operations of a plan as a graph, from its trace: a circle for each register after each step, a line from each register that it is
/// made of, doubled for a doubling, and the difference vector below an addition.
pub fn drawing(plan: &Plan) -> String {
    let rows = plan.d as usize + 1;
    let mut out = vec![0u8; plan.l as usize * rows * (rows + 1)];
    assert_eq!(trace::trace(plan, &mut out).0, refuse::OK, "a plan");
    let (wide, _) = place(plan.l as usize + 1, 0);
    let (_, high) = place(0, rows);
    let lines: String = (out.chunks(rows + 1).enumerate())
        .map(|(n, entry)| operation(n / rows + 1, n % rows, entry))
        .collect();
    let circles: String = (0..=plan.l as usize).map(|s| registers(plan, s)).collect();
    format!(
        "<svg xmlns=\"http://www.w3.org/2000/svg\" viewBox=\"0 0 {wide} {high}\" font-family=\"sans-serif\" font-size=\"13\">\n\
         {lines}{circles}</svg>\n"
    )
}
