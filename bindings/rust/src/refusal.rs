//! The table of refusals.
use std::error::Error;
use std::fmt;

/// Why a call refuses.
#[derive(Clone, Copy, Debug, PartialEq, Eq, Hash)]
pub enum Refusal {
    /// 1: d is not 1 to 8.
    Dim,
    /// 2: l is not 1 to 576.
    Length,
    /// 3: a lent buffer does not have exactly its length, or a step's bit number is 2^d or more.
    Shape,
    /// 4: a scalar is 2^l or more.
    Scalar,
    /// 5: the order is not an arrangement of 1 to d, or a walk state has another fault.
    Order,
    /// 6: the answer row is not 1 to d+1.
    Row,
    /// 7: the modulus is above 2^63.
    Modulus,
    /// 8: an element is not below a modulus other than 0.
    Element,
    /// 9: a plan file is shorter than 12 bytes, or has a wrong mark or a wrong back distance.
    Trailer,
    /// 10: more than 4,096 bytes are to be listed.
    Big,
    /// A number that the table does not have. The library that these bindings are for answers none.
    Unknown(u64),
}

/// The table: its numbers count from 1.
const TABLE: [(Refusal, &str); 10] = [
    (Refusal::Dim, "d is not 1 to 8"),
    (Refusal::Length, "l is not 1 to 576"),
    (
        Refusal::Shape,
        "a lent buffer does not have exactly its length, or a step's bit number is 2^d or more",
    ),
    (Refusal::Scalar, "a scalar is 2^l or more"),
    (
        Refusal::Order,
        "the order is not an arrangement of 1 to d, or a walk state has another fault",
    ),
    (Refusal::Row, "the answer row is not 1 to d+1"),
    (Refusal::Modulus, "the modulus is above 2^63"),
    (
        Refusal::Element,
        "an element is not below a modulus other than 0",
    ),
    (
        Refusal::Trailer,
        "a plan file is shorter than 12 bytes, or has a wrong mark or a wrong back distance",
    ),
    (Refusal::Big, "more than 4,096 bytes are to be listed"),
];

impl Refusal {
    /// The refusal of a number, none for 0.
    pub fn of_number(number: u64) -> Option<Refusal> {
        let place = number.checked_sub(1)?;
        let line = usize::try_from(place).ok().and_then(|i| TABLE.get(i));
        Some(line.map_or(Refusal::Unknown(number), |line| line.0))
    }

    /// Its number in the table.
    pub fn number(self) -> u64 {
        match self {
            Refusal::Dim => 1,
            Refusal::Length => 2,
            Refusal::Shape => 3,
            Refusal::Scalar => 4,
            Refusal::Order => 5,
            Refusal::Row => 6,
            Refusal::Modulus => 7,
            Refusal::Element => 8,
            Refusal::Trailer => 9,
            Refusal::Big => 10,
            Refusal::Unknown(number) => number,
        }
    }

    /// What a call hands back: the answer where its number is 0.
    pub(crate) fn unless<T>(number: u64, answer: T) -> Result<T, Refusal> {
        match Refusal::of_number(number) {
            None => Ok(answer),
            Some(refusal) => Err(refusal),
        }
    }
}

impl fmt::Display for Refusal {
    fn fmt(&self, f: &mut fmt::Formatter<'_>) -> fmt::Result {
        let line = TABLE.iter().find(|line| line.0 == *self);
        let words = line.map_or("a number that the table does not have", |line| line.1);
        write!(f, "refused {}: {words}", self.number())
    }
}

impl Error for Refusal {}
