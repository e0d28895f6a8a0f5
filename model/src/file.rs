//! The plan file and its listing.
use crate::number::Number;
use crate::plan::Plan;
use crate::refusal as refuse;

const MARK: [u8; 4] = [0x64, 0x6d, 0x75, 0x6c];

/// d, answer row, l, back distance, mark.
const TRAILER: usize = 12;

/// The longest text of a listing.
const LONGEST_TEXT: u128 = 8589;

/// The bytes of a body: d + ceil(l*d/8).
fn body_bytes(d: u64, l: u64) -> u128 {
    u128::from(d) + refuse::bits_bytes(d, l)
}

/// The file that holds a plan, nothing before the body and 0 for every filling bit.
pub fn file_of(plan: &Plan) -> Vec<u8> {
    let mut bits = vec![0u8; plan.bits.len()];
    for n in 0..(plan.l * plan.d) as usize {
        bits[n / 8] |= plan.bits[n / 8] & 1 << (7 - n % 8);
    }
    let distance = body_bytes(plan.d, plan.l) as u32;
    let mut file = plan.start.to_vec();
    file.extend(bits);
    file.extend([plan.d as u8, plan.row as u8]);
    file.extend((plan.l as u16).to_le_bytes());
    file.extend(distance.to_le_bytes());
    file.extend(MARK);
    file
}

/// The refusal; writes the file.
pub fn pack(plan: &Plan, file: &mut [u8]) -> u64 {
    let long = body_bytes(plan.d, plan.l) + TRAILER as u128;
    let refusal = plan.refusal(refuse::shape(file.len(), long));
    if refusal == refuse::OK {
        file.copy_from_slice(&file_of(plan));
    }
    refusal
}

/// The plan that a file holds, or the number with which it is refused.
pub fn unpack(file: &[u8]) -> Result<Plan<'_>, u64> {
    let Some(at) = file.len().checked_sub(TRAILER) else {
        return Err(9);
    };
    let (before, trailer) = file.split_at(at);
    if trailer[8..] != MARK {
        return Err(9);
    }
    let (d, row) = (u64::from(trailer[0]), u64::from(trailer[1]));
    let l = u64::from(u16::from_le_bytes([trailer[2], trailer[3]]));
    let distance = u32::from_le_bytes([trailer[4], trailer[5], trailer[6], trailer[7]]) as usize;
    let numbers = refuse::first(&[refuse::dimension(d), refuse::length(l)]);
    if numbers != refuse::OK {
        return Err(numbers);
    }
    if distance as u128 != body_bytes(d, l) || distance > before.len() {
        return Err(9);
    }
    let (start, bits) = before[before.len() - distance..].split_at(d as usize);
    let plan = Plan {
        d,
        l,
        start,
        bits,
        row,
    };
    match refuse::first(&[refuse::order(d, start), refuse::row(d, row)]) {
        refuse::OK => Ok(plan),
        refusal => Err(refusal),
    }
}

/// The refusal, d, l and the answer row, zeros where it refuses.
pub fn numbers(file: &[u8]) -> (u64, u64, u64, u64) {
    match unpack(file) {
        Ok(plan) => (refuse::OK, plan.d, plan.l, plan.row),
        Err(refusal) => (refusal, 0, 0, 0),
    }
}

/// The part of a file that is its body; nothing where it is refused.
pub fn body(file: &[u8]) -> &[u8] {
    match unpack(file) {
        Ok(plan) => {
            let end = file.len() - TRAILER;
            &file[end - plan.start.len() - plan.bits.len()..end]
        }
        Err(_) => &[],
    }
}

fn hexadecimal(n: &Number) -> String {
    let words = n.words();
    let Some((top, rest)) = words.split_last() else {
        return "0".to_string();
    };
    let rest: String = rest.iter().rev().map(|w| format!("{w:016x}")).collect();
    format!("{top:x}{rest}")
}

fn line(first: &str, fields: impl Iterator<Item = String>) -> String {
    fields.fold(first.to_string(), |line, field| line + " " + &field) + "\n"
}

/// The lines of a plan.
fn text(plan: &Plan) -> String {
    let mut text = format!("plan {} {} {}\n", plan.d, plan.l, plan.row);
    text += &line("start", plan.start.iter().map(u8::to_string));
    for s in 0..plan.l as usize {
        let bits: String = plan
            .step_bits(s)
            .iter()
            .map(|&b| if b { '1' } else { '0' })
            .collect();
        text += &format!("{} {bits}\n", s + 1);
    }
    text + &line("value", plan.answer_row().iter().map(hexadecimal))
}

/// The plan that is listed into a buffer of this length, or the number with which the listing is refused.
fn to_list(file: &[u8], buffer: usize) -> Result<Plan<'_>, u64> {
    match refuse::first(&[refuse::big(file.len()), refuse::shape(buffer, LONGEST_TEXT)]) {
        refuse::OK => unpack(file),
        refusal => Err(refusal),
    }
}

/// The refusal and the length of the text; writes it at the buffer's start.
pub fn listing(file: &[u8], buffer: &mut [u8]) -> (u64, usize) {
    match to_list(file, buffer.len()) {
        Ok(plan) => {
            let text = text(&plan);
            buffer[..text.len()].copy_from_slice(text.as_bytes());
            (refuse::OK, text.len())
        }
        Err(refusal) => (refusal, 0),
    }
}
