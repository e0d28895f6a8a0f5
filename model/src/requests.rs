//! Requests as the program `conform` takes them, and the line that each must give.
use crate::file;
use crate::plan::{self, Plan};
use crate::run;
use crate::trace;
use crate::walk::Walk;

/// More bytes than these are told by their count and two sums.
const LONG: usize = 1000;

/// How far the second sum spreads each byte over those before it.
const SPREAD: u64 = (1 << 40) + (1 << 21) + (1 << 7) + 1;

/// What a lent output holds when it is lent.
const LENT: u8 = 170;

pub const ENCODE: u64 = 1;
pub const DECODE: u64 = 2;
pub const CHECK: u64 = 3;
pub const TRACE: u64 = 4;
pub const STEP: u64 = 5;
pub const PLAIN: u64 = 6;
pub const DIFFERENCE: u64 = 7;
pub const PACK: u64 = 8;
pub const UNPACK: u64 = 9;
pub const BODY: u64 = 10;
pub const LISTING: u64 = 11;

/// A call and what is lent to it. A step has its number for l, its order for start and its signs for bits; a run its elements for words
/// and its registers for out; a file is the bits of a request that takes one.
#[derive(Clone, Default)]
pub struct Request {
    pub call: u64,
    pub d: u64,
    pub l: u64,
    pub row: u64,
    pub start: Vec<u8>,
    pub bits: Vec<u8>,
    pub m: u64,
    pub words: Vec<u64>,
    pub out: usize,
}

/// How much a request lends of each.
struct Lent {
    start: u64,
    bits: u64,
    words: u64,
    out: u64,
}

impl Lent {
    /// Whether it is more than the program holds.
    fn too_much(&self, call: u64) -> bool {
        let most = match call {
            TRACE => 51904,
            PLAIN | DIFFERENCE => 80,
            PACK => 640,
            LISTING => 8600,
            _ => u64::MAX,
        };
        self.start > 64 || self.bits > 65536 || self.words > 128 || self.out > most
    }

    fn line(&self) -> String {
        format!(
            "more is lent than conform holds: start {} bits {} words {} output {}\n",
            self.start, self.bits, self.words, self.out
        )
    }
}

fn bytes(label: &str, s: &[u8]) -> String {
    if s.len() > LONG {
        let (plain, spread) = s.iter().fold((0u64, 0u64), |(plain, spread), &b| {
            let b = u64::from(b);
            (plain + b, spread.wrapping_mul(SPREAD).wrapping_add(b))
        });
        return format!("{label} {} bytes of sums {plain} {spread}", s.len());
    }
    s.iter()
        .fold(label.to_string(), |line, b| line + &format!(" {b:02x}"))
}

fn words(label: &str, s: &[u64]) -> String {
    s.iter()
        .fold(label.to_string(), |line, w| line + &format!(" {w:x}"))
}

fn state(walk: &Walk) -> String {
    let signs: Vec<u8> = walk.signs.iter().map(|&s| s as u8).collect();
    format!(
        "{}{}{}",
        walk.d,
        bytes(" order", &walk.order),
        bytes(" signs", &signs)
    )
}

impl Request {
    pub fn plan(&self) -> Plan<'_> {
        Plan {
            d: self.d,
            l: self.l,
            start: &self.start,
            bits: &self.bits,
            row: self.row,
        }
    }

    fn has_modulus(call: u64) -> bool {
        call == PLAIN || call == DIFFERENCE
    }

    /// The request as the program reads it: the numbers count, the words are for the reader.
    pub fn written(&self) -> String {
        let names = [
            "encode",
            "decode",
            "check",
            "trace",
            "step",
            "plain",
            "difference",
            "pack",
            "unpack",
            "body",
            "listing",
        ];
        let bytes = |label: &str, s: &[u8]| {
            s.iter()
                .fold(format!("  {label}"), |t, b| t + &format!(" {b}"))
        };
        let mut text = format!(
            "{} {}  d {} l {} row {}  lent {} {} {} {}",
            self.call,
            names[self.call as usize - 1],
            self.d,
            self.l,
            self.row,
            self.start.len(),
            self.bits.len(),
            self.words.len(),
            self.out
        );
        text += &bytes("start", &self.start);
        text += &bytes("bits", &self.bits);
        if Request::has_modulus(self.call) {
            text += &format!("  modulus {}", self.m);
        }
        self.words
            .iter()
            .fold(text + "  words", |t, w| t + &format!(" {w}"))
    }

    /// The line up to the colon, for calls that take a plan.
    fn head(&self, name: &str) -> String {
        format!(
            "{name} {} {}{}{} row {}",
            self.d,
            self.l,
            bytes(" start", &self.start),
            bytes(" bits", &self.bits),
            self.row
        )
    }

    fn encode(&self) -> String {
        let (mut start, mut bits) = (self.start.clone(), self.bits.clone());
        let (refusal, row) = plan::encode(self.d, self.l, &self.words, &mut start, &mut bits);
        let head = format!("encode {} {}{}", self.d, self.l, words(" of", &self.words));
        format!(
            "{head}: refusal {refusal} row {row}{}{}",
            bytes(" start", &start),
            bytes(" bits", &bits)
        )
    }

    fn decode(&self) -> String {
        let mut values = self.words.clone();
        let refusal = plan::decode(&self.plan(), &mut values);
        format!(
            "{}: refusal {refusal}{}",
            self.head("decode"),
            words(" values", &values)
        )
    }

    fn check(&self) -> String {
        let (refusal, yes) = plan::check(&self.plan(), &self.words);
        let said = if yes { "yes" } else { "no" };
        format!(
            "{}{}: refusal {refusal} {said}",
            self.head("check"),
            words(" of", &self.words)
        )
    }

    fn trace(&self) -> String {
        let mut out = vec![LENT; self.out];
        let (refusal, doublings, additions) = trace::trace(&self.plan(), &mut out);
        format!(
            "{}: refusal {refusal} doublings {doublings} additions {additions}{}",
            self.head("trace"),
            bytes(" out", &out)
        )
    }

    fn step(&self) -> String {
        let at = |s: &[u8], i: usize| s.get(i).copied().unwrap_or(0);
        let mut walk = Walk {
            d: self.d,
            order: [0; 8],
            signs: [0; 8],
        };
        for i in 0..8 {
            walk.order[i] = at(&self.start, i);
            walk.signs[i] = at(&self.bits, i) as i8;
        }
        let (refusal, next) = walk.step(self.l);
        format!(
            "step {} by {}: refusal {refusal} walk {}",
            state(&walk),
            self.l,
            state(&next)
        )
    }

    fn run(&self, name: &str, differences: bool) -> String {
        let mut registers = vec![u64::from(LENT); self.out];
        let ran = run::run(
            &self.plan(),
            self.m,
            &self.words,
            &mut registers,
            differences,
        );
        let head = format!(
            "{} modulus {}{}",
            self.head(name),
            self.m,
            words(" of", &self.words)
        );
        let counts = format!("doublings {} additions {}", ran.doublings, ran.additions);
        format!(
            "{head}: refusal {} answer {} {counts}{}",
            ran.refusal,
            ran.answer,
            words(" registers", &registers)
        )
    }

    fn pack(&self) -> String {
        let mut file = vec![LENT; self.out];
        let refusal = file::pack(&self.plan(), &mut file);
        format!(
            "{}: refusal {refusal}{}",
            self.head("pack"),
            bytes(" file", &file)
        )
    }

    fn unpack(&self) -> String {
        let (refusal, d, l, row) = file::numbers(&self.bits);
        let head = bytes("unpack", &self.bits);
        format!("{head}: refusal {refusal} d {d} l {l} row {row}")
    }

    fn body(&self) -> String {
        let body = file::body(&self.bits);
        bytes("body", &self.bits) + &bytes(": bytes", body)
    }

    fn listing(&self) -> String {
        let mut buffer = vec![LENT; self.out];
        let (refusal, length) = file::listing(&self.bits, &mut buffer);
        let text = String::from_utf8_lossy(&buffer[..length]).replace('\n', "|");
        format!(
            "{}: refusal {refusal} length {length}{} text {text}",
            bytes("listing", &self.bits),
            bytes(" buffer", &buffer)
        )
    }

    pub fn line(&self) -> String {
        match self.call {
            ENCODE => self.encode(),
            DECODE => self.decode(),
            CHECK => self.check(),
            TRACE => self.trace(),
            STEP => self.step(),
            PLAIN => self.run("plain", false),
            DIFFERENCE => self.run("difference", true),
            PACK => self.pack(),
            UNPACK => self.unpack(),
            BODY => self.body(),
            LISTING => self.listing(),
            _ => "no such call".to_string(),
        }
    }
}

/// The numbers of a text: every run of digits in it, 2^64 - 1 for one that is above that. Past the last they are 0, and the text has ended.
struct Numbers<'a> {
    left: Box<dyn Iterator<Item = u64> + 'a>,
    ended: bool,
}

impl Numbers<'_> {
    fn of(text: &str) -> Numbers<'_> {
        let runs = text.split(|c: char| !c.is_ascii_digit());
        let numbers = runs
            .filter(|n| !n.is_empty())
            .map(|n| n.parse().unwrap_or(u64::MAX));
        Numbers {
            left: Box::new(numbers),
            ended: false,
        }
    }

    fn next(&mut self) -> u64 {
        let number = self.left.next();
        self.ended |= number.is_none();
        number.unwrap_or(0)
    }

    /// The next so many, or as many as there are.
    fn some(&mut self, count: u64) -> Vec<u64> {
        let mut numbers = Vec::new();
        while (numbers.len() as u64) < count && !self.ended {
            numbers.push(self.next());
        }
        numbers
    }

    /// The next request, and how much it lends, unless the text ends before that is said.
    fn request(&mut self) -> Option<(Request, Lent)> {
        let call = self.next();
        let (d, l, row) = (self.next(), self.next(), self.next());
        let lent = Lent {
            start: self.next(),
            bits: self.next(),
            words: self.next(),
            out: self.next(),
        };
        if self.ended {
            return None;
        }
        let bytes = |numbers: Vec<u64>| numbers.into_iter().map(|n| n as u8).collect();
        let request = Request {
            call,
            d,
            l,
            row,
            start: bytes(self.some(lent.start)),
            bits: bytes(self.some(lent.bits)),
            m: self
                .some(u64::from(Request::has_modulus(call)))
                .first()
                .map_or(0, |&m| m),
            words: self.some(lent.words),
            out: lent.out as usize,
        };
        Some((request, lent))
    }
}

/// The line of each request of a text, whose first number says how many there are; the last line says so where the text ends within one.
pub fn answers(text: &str) -> String {
    let mut numbers = Numbers::of(text);
    let mut lines = String::new();
    for _ in 0..numbers.next() {
        if let Some((request, lent)) = numbers.request() {
            if lent.too_much(request.call) {
                lines += &lent.line();
            } else if !numbers.ended {
                lines += &(request.line() + "\n");
            }
        }
        if numbers.ended {
            return lines + "the input ends within a request\n";
        }
    }
    lines
}
