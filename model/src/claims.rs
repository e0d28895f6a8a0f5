//! The guide's sentences that have numbers in them: made from the plan that they speak of, or, where they speak of every plan, tried on many.
//! `tests/guide` looks for each of them in the guide's text, and allows no digit besides.
use crate::file;
use crate::number::Number;
use crate::plan::{self, operations, step, Matrix, Plan, Row};
use crate::random::Random;
use crate::requests::Request;
use crate::show::{bits_text, entries, joined, order, row_text, signs};
use crate::trace;
use crate::walk::Walk;

/// The plan files of the guide's blocks.
const OF_73: &str = "01DA0102070002000000646D756C";
const OF_73_59: &str = "010272D80203070004000000646D756C";
const OWN_BITS: &str = "01920102070002000000646D756C";
const TABLE_4: &str = "010272D40203070004000000646D756C";
const OF_2_1: &str = "0102B00202020003000000646D756C";
const IN_COLUMN_ORDER: &str = "0201B2D80203070004000000646D756C";
const KEPT_IN_PLACE: &str = "0102700202020003000000646D756C";
const TWO_IN_ONE_BIT: &str = "01800101010002000000646D756C";
const OTHER_START: &str = "0201B00202020003000000646D756C";

/// The first lines of the guide's blocks, in order.
pub fn blocks() -> Vec<String> {
    [
        format!("steps {OF_73}"),
        "dealing 7 73".into(),
        format!("steps {OF_73_59}"),
        "dealing 7 73 59".into(),
        format!("steps {TABLE_4}"),
        format!("steps {OF_2_1}"),
        format!("entries {OF_2_1}"),
        format!("steps {OWN_BITS}"),
        format!("steps {IN_COLUMN_ORDER}"),
        format!("steps {KEPT_IN_PLACE}"),
        format!("steps {TWO_IN_ONE_BIT}"),
        format!("steps {OTHER_START}"),
        format!("fields {OF_73_59}"),
    ]
    .map(|words| format!("```model {words}"))
    .to_vec()
}

fn read(digits: &str) -> Request {
    let bytes = crate::bytes(digits);
    let plan = file::unpack(&bytes).expect("a plan file");
    Request {
        d: plan.d,
        l: plan.l,
        row: plan.row,
        start: plan.start.to_vec(),
        bits: plan.bits.to_vec(),
        ..Request::default()
    }
}

/// The matrix before the first step and after each.
fn matrices(plan: &Plan) -> Vec<Matrix> {
    let mut all = vec![plan.start_matrix()];
    for s in 0..plan.l as usize {
        all.push(step(&all[s], &plan.step_bits(s)));
    }
    all
}

fn bits(plan: &Plan) -> Vec<String> {
    let steps = 0..plan.l as usize;
    steps.map(|s| bits_text(&plan.step_bits(s))).collect()
}

fn rows(matrix: &Matrix) -> Vec<String> {
    matrix.iter().map(|row| row_text(row)).collect()
}

fn twice(row: &Row) -> Row {
    plan::sum(row, row)
}

/// Plans of every d with any order and any bits.
fn samples() -> Vec<Request> {
    let mut random = Random(59);
    let mut all = Vec::new();
    for n in 0..400 {
        let (d, l) = (1 + n % 8, 1 + random.below(12));
        let mut start: Vec<u8> = (1..=d as u8).collect();
        start.rotate_left(random.below(d) as usize);
        all.push(Request {
            d,
            l,
            row: 1,
            start,
            bits: random.bytes((d * l).div_ceil(8) as usize),
            ..Request::default()
        });
    }
    all
}

/// The plan that encoding gives for scalars of at most 64 bits.
fn encoded(l: u64, scalars: &[u64]) -> Request {
    let d = scalars.len() as u64;
    let mut request = Request {
        d,
        l,
        start: vec![0; d as usize],
        bits: vec![0; (l * d).div_ceil(8) as usize],
        ..Request::default()
    };
    let (refusal, row) = plan::encode(d, l, scalars, &mut request.start, &mut request.bits);
    assert_eq!(refusal, 0, "scalars below 2^l");
    request.row = row;
    request
}

/// One scalar, in general: what each matrix and each step is.
fn ladder_of_one() -> Vec<String> {
    for request in samples().iter().filter(|r| r.d == 1) {
        let plan = request.plan();
        let all = matrices(&plan);
        assert_eq!(rows(&all[0]), ["(0)", "(1)"], "the start");
        for (s, pair) in all.windows(2).enumerate() {
            let (old, new) = (&pair[0], &pair[1]);
            let doubled = usize::from(plan.step_bits(s)[0]);
            assert_eq!(new[0], twice(&old[doubled]), "the doubling");
            assert_eq!(new[1], plan::sum(&old[0], &old[1]), "the sum");
            assert!(!new[0][0].is_odd() && new[1][0].is_odd());
            trace::difference(&new[0][0], &new[1][0]);
        }
    }
    vec![
        "keeps two numbers that differ by 1: one even, in row 1, and one odd, in row 2".into(),
        "At the start they are 0 and 1.".into(),
        "A step with bit 0 gives twice row 1, and the sum; a step with bit 1 gives twice row 2, and the sum. That is all: one doubling and one addition.".into(),
    ]
}

fn one_scalar() -> Vec<String> {
    let request = read(OF_73);
    let plan = request.plan();
    let last = plan.last_matrix();
    let of = |row: usize| last[row - 1][0].word(0);
    let scalar = plan.answer_row()[0].word(0);
    let own: Vec<bool> = (0..plan.l).rev().map(|i| scalar >> i & 1 == 1).collect();
    let (own, dealt) = (bits_text(&own), bits(&plan).concat());
    let even = encoded(plan.l, &[scalar + 1]).row;
    let wrong = read(OWN_BITS);
    assert_eq!(bits(&wrong.plan()).concat(), own, "the scalar's own bits");
    let reached = wrong.plan().answer_row()[0].word(0);
    vec![
        format!("Here is {scalar}, with {} steps:", plan.l),
        format!("The last matrix holds {} and {}. Since {scalar} is odd it stands in row {}: of an even scalar the answer would stand in row {even}.", of(1), of(2), plan.row),
        format!("Now look at the bits, {dealt}. They are not those of {scalar}, which are {own}."),
        format!("For {scalar} the plan has {dealt}, the scalar {own}. A plan with the scalar's own bits leads to {reached} in row {}:", wrong.row),
    ]
}

/// The first bit dealt of a column is the scalar's own: before it stands a 0.
fn first_bits() -> Vec<String> {
    for scalar in 0..16 {
        let first = encoded(4, &[scalar]).plan().step_bits(0)[0];
        assert_eq!(first, scalar >> 3 & 1 == 1, "the top bit");
    }
    vec!["before the first stands a 0.".into()]
}

/// Every matrix of every plan: odd entries, and how neighbouring rows differ.
fn matrices_of_many() -> Vec<String> {
    for request in samples() {
        for matrix in matrices(&request.plan()) {
            assert_eq!(matrix.len() as u64, request.d + 1);
            for (i, row) in matrix.iter().enumerate() {
                assert_eq!(row.len() as u64, request.d);
                assert_eq!(row.iter().filter(|n| n.is_odd()).count(), i);
            }
            let mut columns: Vec<usize> = order(&matrix);
            columns.sort_unstable();
            assert!(columns.into_iter().eq(1..=request.d as usize));
            for pair in matrix.windows(2) {
                let changes = |j: &usize| trace::difference(&pair[0][*j], &pair[1][*j]) != 0;
                assert_eq!((0..pair[0].len()).filter(changes).count(), 1);
            }
        }
    }
    vec![
        "A core computes k1*P1 + .. + kd*Pd with d + 1 registers.".into(),
        "Rows, columns and steps are counted from 1,".into(),
        "With d scalars there are d + 1 rows of d numbers. Row 1 has no odd entry, row 2 one, and so on, up to row d + 1, whose entries are all odd.".into(),
        "From each row to the next one entry changes, by 1, in a column of its own.".into(),
        "Row i has i - 1 odd entries.".into(),
    ]
}

/// Every step of every plan, by the words of the guide: a doubling and d additions.
fn steps_of_many() -> Vec<String> {
    for request in samples() {
        let plan = request.plan();
        for (s, pair) in matrices(&plan).windows(2).enumerate() {
            let (old, new) = (&pair[0], &pair[1]);
            let bits = plan.step_bits(s);
            let h = bits.iter().filter(|&&b| b).count();
            let row = |i: usize| &old[i - 1];
            assert_eq!(new[0], twice(row(h + 1)));
            let (mut x, mut y) = (h + 1, h + 1);
            for (k, &bit) in bits.iter().enumerate() {
                (x, y) = if bit { (x - 1, y) } else { (x, y + 1) };
                assert_eq!(new[k + 1], plan::sum(row(x), row(y)));
                let vector = row(x).iter().zip(row(y));
                let changes = vector.filter(|(a, b)| trace::difference(a, b) != 0);
                assert_eq!((y - x, changes.count()), (k + 1, k + 1));
            }
        }
    }
    vec![
        "Let h be how many of them are 1. The new row 1 is twice row h + 1. Then x and y both start at h + 1: for each bit, 0 lets y grow and 1 lets x fall, and the next new row is row x plus row y. So a step is one doubling and d additions. After k bits row y stands k rows below row x, so their difference is the changes of k columns, each once: a vector of -1, 0 and 1 that is not zero.".into(),
    ]
}

/// The signs of every plan: a step turns those of the columns at the new order's places whose bit is 1.
fn signs_of_many() -> Vec<String> {
    for request in samples() {
        let plan = request.plan();
        for (s, pair) in matrices(&plan).windows(2).enumerate() {
            let mut turned: Vec<char> = signs(&pair[0]).chars().collect();
            for (column, bit) in order(&pair[1]).into_iter().zip(plan.step_bits(s)) {
                let sign = &mut turned[column - 1];
                if bit {
                    *sign = if *sign == '+' { '-' } else { '+' };
                }
            }
            assert_eq!(turned.into_iter().collect::<String>(), signs(&pair[1]));
        }
    }
    vec![
        "and a sign is +1 or -1.".into(),
        "A step turns the sign of just the columns that stand at the new order's places whose bit is 1.".into(),
    ]
}

/// The order before a step, as the encoder forms it, is the one that the step leads on from.
fn orders_before() -> Vec<String> {
    let request = samples().into_iter().find(|r| r.d == 8).expect("a plan");
    for number in 0..256u64 {
        let dealt: Vec<bool> = (0..8).rev().map(|i| number >> i & 1 == 1).collect();
        let columns: Vec<usize> = request.start.iter().map(|&j| usize::from(j)).collect();
        let before = plan::order_before(&columns, &dealt);
        let before: Vec<u8> = before.into_iter().map(|j| j as u8).collect();
        let walk = Walk {
            d: 8,
            order: before.try_into().expect("eight columns"),
            signs: [1; 8],
        };
        assert_eq!(walk.step(number).1.order.as_slice(), request.start);
    }
    vec!["those that got a 1 in reverse, then those that got a 0.".into()]
}

fn two_scalars() -> Vec<String> {
    let request = read(OF_73_59);
    let plan = request.plan();
    let scalars: Vec<u64> = plan.answer_row().iter().map(|n| n.word(0)).collect();
    let of_both = format!("{} and {}", scalars[0], scalars[1]);
    assert_eq!(encoded(plan.l, &scalars).bits, request.bits);
    let all = matrices(&plan);
    let after = joined(&order(&all[1]));
    assert_eq!(order(&all[0]), [1, 2], "the start order");
    let filling = 8 * plan.bits.len() as u64 - plan.d * plan.l;
    assert_eq!((filling, plan.bits[1] & 3), (2, 0), "filling bits");
    vec![
        format!("Here are {of_both}, step by step:"),
        format!("Rows {}: both scalars are odd, so the answer stands in row {}.", rows(&all[7]).join(", "), plan.row),
        format!("The operations of the plan of {of_both}"),
        format!("After step 1 the order is {after}, so the bit of column {} comes first. What is left as the order before step 1 is the plan's start order.", order(&all[1])[0]),
        format!("{of_both}, at step 1: the order after it is {after}, so the right bits are {}.", bits(&plan)[0]),
        format!("The plan of {of_both}, byte by byte:"),
        format!("then the bits, {} with two filling bits of 0.", bits(&plan).join(" ")),
    ]
}

/// Table 4 of the source, whose bits are these, beside the rules' plan.
fn two_plans() -> Vec<String> {
    let (ours, theirs) = (read(OF_73_59), read(TABLE_4));
    let (ours, theirs) = (ours.plan(), theirs.plan());
    assert_eq!(bits(&theirs).join(" "), "01 11 00 10 11 01 01", "Table 4");
    let differ: Vec<usize> = (0..7)
        .filter(|&s| bits(&ours)[s] != bits(&theirs)[s])
        .collect();
    let (last, other) = (ours.last_matrix(), theirs.last_matrix());
    let apart: Vec<usize> = (0..3).filter(|&i| last[i] != other[i]).collect();
    assert_eq!((differ.len(), apart.len()), (1, 1), "one step, one row");
    assert_eq!(ours.answer_row(), theirs.answer_row());
    let (s, i) = (differ[0], apart[0]);
    let row: Vec<u64> = theirs.answer_row().iter().map(|n| n.word(0)).collect();
    vec![
        format!("Table 4 of the source has other bits for {} and {}:", row[0], row[1]),
        format!("Only step {} differs, {} for {}, and so does row {} of the last matrix, {} for {}. This plan ends in the order {}.",
            s + 1, bits(&theirs)[s], bits(&ours)[s], i + 1, rows(&other)[i], rows(&last)[i], joined(&order(&other))),
        format!("Row {} is the same in both,", theirs.row),
    ]
}

/// (2,1): where its answer stands, and its trace.
fn small_plan() -> Vec<String> {
    let request = read(OF_2_1);
    let plan = request.plan();
    let of = row_text(&plan.answer_row());
    for scalars in [[0u64, 2], [2, 1], [1, 2], [3, 1]] {
        let odd = scalars.iter().filter(|&k| k % 2 == 1).count() as u64;
        assert_eq!(encoded(2, &scalars).row, 1 + odd, "where the answer stands");
    }
    let all = matrices(&plan);
    let before = rows(&all[1]);
    let (x, y) = *operations(&plan.step_bits(1)).last().expect("an addition");
    let listed = entries(&plan);
    let vector = listed.trim_end().rsplit(' ').next().expect("a vector");
    vec![
        format!("1 + the number of odd scalars. Of {of}, one scalar is odd, and the answer is row {}:", plan.row),
        format!("an entry for each operation: x, y, and row y minus row x of the matrix *before* the step. Of {of}:"),
        format!("In step 2 the last is rows {} and {} with {vector}: before that step the rows are {}, and {} minus {} is {vector}.",
            x + 1, y + 1, before.join(", "), before[y], before[x]),
        format!("Of {of} the last row is {}.", rows(&all[2])[2]),
        format!("Of {of}, the last addition of step 2: the new matrix gives {} minus {}, which has the signs the wrong way round; right is {vector}, from the matrix before.",
            rows(&all[2])[y], rows(&all[2])[x]),
        format!("column 1 turned in step 1, so its sign is {}1; forgotten, the vector's first entry is {}.",
            &signs(&all[1])[..1], -vector[1..].split(',').next().expect("an entry").parse::<i8>().expect("a number")),
    ]
}

/// The bits and the start order that two wrong encoders give: one deals in column order, the other keeps the ones' columns in place.
fn wrongly_encoded(l: usize, scalars: &[u64], in_column_order: bool) -> (Vec<String>, Vec<u8>) {
    let numbers: Vec<Number> = scalars.iter().map(|&k| Number::from_words(&[k])).collect();
    let rising: Vec<usize> = (0..numbers.len()).collect();
    let mut order = plan::end_order(&numbers);
    let mut all = Vec::new();
    for s in (1..=l).rev() {
        let dealt_in = if in_column_order { &rising } else { &order };
        let dealt = plan::deal(&numbers, l, s, dealt_in);
        let mut before = plan::order_before(&order, &dealt);
        if !in_column_order {
            let ones = dealt.iter().filter(|&&b| b).count();
            before[..ones].reverse();
        }
        all.insert(0, bits_text(&dealt));
        order = before;
    }
    (all, order.iter().map(|&j| j as u8 + 1).collect())
}

/// Two wrong encoders, whose plans the guide shows.
fn wrong_encoders() -> Vec<String> {
    let (dealt, kept) = (read(IN_COLUMN_ORDER), read(KEPT_IN_PLACE));
    let wrong = wrongly_encoded(7, &[73, 59], true);
    assert_eq!((bits(&dealt.plan()), dealt.start.clone()), wrong);
    let wrong = wrongly_encoded(2, &[2, 1], false);
    assert_eq!((bits(&kept.plan()), kept.start.clone()), wrong);
    let of = row_text(&read(OF_2_1).plan().answer_row());
    let (reached, other) = (dealt.plan().answer_row(), kept.plan().answer_row());
    vec![
        format!(
            "the plan is another, and its row {} is {}:",
            dealt.row,
            row_text(&reached)
        ),
        format!(
            "Of {of} this gives bits {}, and row {} is {}:",
            bits(&kept.plan()).join(" "),
            kept.row,
            row_text(&other)
        ),
    ]
}

/// An entry that does not fit into l bits.
fn wide_entry() -> Vec<String> {
    let request = read(TWO_IN_ONE_BIT);
    let plan = request.plan();
    let entry = plan.last_matrix()[0][0].clone();
    assert!(plan.l == 1 && plan.row == 1 && !entry.has_bits(1));
    vec![format!(
        "One column, one step, bit {}: row 1 is {}, which does not fit into one bit.",
        bits(&plan)[0],
        entry.word(0)
    )]
}

/// The same bits from another start order.
fn other_start() -> Vec<String> {
    let (right, other) = (read(OF_2_1), read(OTHER_START));
    assert_eq!(other.bits, right.bits);
    let of = row_text(&right.plan().answer_row());
    let last = rows(&other.plan().last_matrix());
    assert!(last[0] != last[1] && last[2] != last[1] && !last.contains(&of));
    vec![
        format!(
            "Take the bits of {of} and suppose the start order {}:",
            joined(&other.start)
        ),
        format!(
            "Row {} is {} now, and whoever reads row 1 or row 3 has yet another answer.",
            other.row, last[1]
        ),
    ]
}

/// What is said of the last matrix of an encoded plan, and of a column's sign, tried on many scalars.
fn ends_of_many() -> Vec<String> {
    for (a, b) in (0..8).flat_map(|a| (0..8).map(move |b| (a, b))) {
        let scalars = [a, b];
        let last = encoded(3, &scalars).plan().last_matrix();
        let odd = |j: &&usize| scalars[**j - 1] % 2 == 1;
        let order = order(&last);
        assert_eq!(
            order.iter().take_while(odd).count(),
            order.iter().filter(odd).count()
        );
        let signs: Vec<char> = signs(&last).chars().collect();
        for j in 0..2 {
            let (even, uneven) = (last[0][j].word(0), last[2][j].word(0));
            let k = scalars[j];
            assert_eq!(
                (even, uneven),
                (k + k % 2, k + 1 - k % 2),
                "first and last row"
            );
            assert_eq!(signs[j] == '+', uneven > even, "the sign");
        }
    }
    vec![
        "and with it the sign, which is + where the odd number is the greater.".into(),
        "Its order is the odd scalars' columns, then the even ones' (the end order); its first row has the scalar itself where it is even and one more where it is odd, its last row the scalar where it is odd and one more where it is even.".into(),
    ]
}

/// The numbers of a trailer, of a plan whose length needs two bytes.
fn low_bytes() -> Vec<String> {
    let long = Request {
        l: 300,
        bits: vec![0; 38],
        d: 1,
        row: 1,
        start: vec![1],
        ..Request::default()
    };
    let file = file::file_of(&long.plan());
    let at = file.len() - 12;
    assert_eq!(
        file[at + 2..at + 8],
        [44, 1, 39, 0, 0, 0],
        "l 300, distance 39"
    );
    vec!["Numbers of more than a byte have the low byte first.".into()]
}

/// Every sentence, in no order.
pub fn claims() -> Vec<String> {
    [
        ladder_of_one(),
        one_scalar(),
        first_bits(),
        matrices_of_many(),
        steps_of_many(),
        signs_of_many(),
        orders_before(),
        two_scalars(),
        two_plans(),
        small_plan(),
        wrong_encoders(),
        wide_entry(),
        ends_of_many(),
        low_bytes(),
        other_start(),
    ]
    .concat()
}
