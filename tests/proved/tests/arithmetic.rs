//! The proved arithmetic against plain Rust on 128 bits.

use compare::random::Rng;
use proved::{add, compare, div, modulo, multiply, negate, power, subtract};
use reference::AnswerRow;

const PAIRS: u64 = 200_000;

const INTEGER: u8 = 1;
const OUTSIDE: u8 = 16;
const ZERO_DIVISOR: u8 = 17;
const NEGATIVE_POWER: u8 = 18;

/// A value, or the number of an end.
type Outcome = Result<i64, u8>;
type Operation = (&'static str, fn(i64, i64) -> AnswerRow, fn(i64, i64) -> Outcome);

/// Each proved operation with its like; negation is of the first operand alone.
const OPERATIONS: [Operation; 7] = [
    ("+", add, |a, b| exact(i128::from(a) + i128::from(b))),
    ("-", subtract, |a, b| exact(i128::from(a) - i128::from(b))),
    ("*", multiply, |a, b| exact(i128::from(a) * i128::from(b))),
    ("DIV", div, |a, b| divided(a, b).and_then(|(q, _)| exact(q))),
    ("MOD", modulo, |a, b| divided(a, b).and_then(|(_, r)| exact(r))),
    ("**", power, raised),
    ("negated, not", |a, _| negate(a), |a, _| exact(-i128::from(a))),
];

fn exact(z: i128) -> Outcome {
    i64::try_from(z).map_err(|_| OUTSIDE)
}

/// DIV and MOD: for a negative divisor the opposites of those by its magnitude.
fn divided(a: i64, b: i64) -> Result<(i128, i128), u8> {
    let (a, b) = (i128::from(a), i128::from(b));
    if b == 0 {
        return Err(ZERO_DIVISOR);
    }
    let (q, r) = (a.div_euclid(b.abs()), a.rem_euclid(b.abs()));
    Ok((q * b.signum(), r * b.signum()))
}

fn raised(a: i64, b: i64) -> Outcome {
    if b < 0 {
        return Err(NEGATIVE_POWER);
    }
    match (a, b) {
        (_, 0) | (1, _) => Ok(1),
        (0, _) => Ok(0),
        (-1, _) => Ok(if b % 2 == 0 { 1 } else { -1 }),
        (_, 64..) => Err(OUTSIDE),
        _ => i128::from(a).checked_pow(b as u32).map_or(Err(OUTSIDE), exact),
    }
}

fn row(outcome: Outcome) -> AnswerRow {
    match outcome {
        Ok(number) => AnswerRow { kind: INTEGER, number, length: 0 },
        Err(end) => AnswerRow { kind: end, number: 0, length: 0 },
    }
}

fn hold(a: i64, b: i64) {
    for (operation, proved, plain) in OPERATIONS {
        assert_eq!(proved(a, b), row(plain(a, b)), "{a} {operation} {b}");
    }
    assert_eq!(compare(a, b), a.cmp(&b), "the order of {a} and {b}");
}

/// Numbers near 0, near the ends of the range and near the powers of 2.
fn near_the_ends() -> Vec<i64> {
    let powers = (0..63).flat_map(|k| [1i64 << k, -1 << k]);
    let numbers = [0, i64::MAX, i64::MIN].into_iter().chain(powers);
    numbers.flat_map(|n| (-2..=2).map(move |d| n.wrapping_add(d))).collect()
}

#[test]
fn pairs_near_the_ends() {
    let numbers = near_the_ends();
    numbers.iter().for_each(|&a| numbers.iter().for_each(|&b| hold(a, b)));
}

/// Operands of every size.
fn random_pairs() -> impl Iterator<Item = (i64, i64)> {
    let mut rng = Rng::new(0);
    let mut number = move || (rng.draw() as i64) >> rng.below(64);
    (0..PAIRS).map(move |_| (number(), number()))
}

#[test]
fn pairs_of_every_size() {
    let (mut sizes, mut ends) = ([0; 64], [0; 3]);
    for (a, b) in random_pairs() {
        hold(a, b);
        sizes[(a ^ a >> 63).leading_zeros() as usize - 1] += 1;
        let met = OPERATIONS.iter().filter_map(|(_, _, plain)| plain(a, b).err());
        met.for_each(|end| ends[usize::from(end - OUTSIDE)] += 1);
    }
    assert!(sizes.iter().chain(&ends).all(|&count| count > 0), "sizes {sizes:?}, ends {ends:?}");
}

/// The cases that the scope names, and the ends of the range, worked out by hand.
#[test]
fn worked_cases() {
    const MAX: i64 = 9_223_372_036_854_775_807;
    const MIN: i64 = -MAX - 1;
    let cases: [(i64, &str, i64, Outcome); 22] = [
        (-10, "**", 2, Ok(100)),
        (7, "DIV", -2, Ok(-3)),
        (7, "MOD", -2, Ok(-1)),
        (-7, "MOD", 2, Ok(1)),
        (-7, "DIV", -2, Ok(4)),
        (-MAX, "-", 1, Ok(MIN)),
        (MIN, "DIV", -1, Err(16)),
        (MIN, "MOD", -1, Ok(0)),
        (2, "**", 62, Ok(4_611_686_018_427_387_904)),
        (2, "**", 63, Err(16)),
        (-2, "**", 63, Ok(MIN)),
        (0, "**", 0, Ok(1)),
        (1, "**", -1, Err(18)),
        (-1, "**", MAX, Ok(-1)),
        (3, "**", MAX, Err(16)),
        (0, "**", MAX, Ok(0)),
        (MIN, "*", -1, Err(16)),
        (MIN, "*", 1, Ok(MIN)),
        (-4_294_967_296, "*", 2_147_483_648, Ok(MIN)),
        (4_294_967_296, "*", 2_147_483_648, Err(16)),
        (7, "DIV", 0, Err(17)),
        (7, "MOD", 0, Err(17)),
    ];
    for (a, operation, b, outcome) in cases {
        let (_, proved, _) = OPERATIONS.into_iter().find(|(name, ..)| *name == operation).expect("an operation");
        assert_eq!(proved(a, b), row(outcome), "{a} {operation} {b}");
    }
}

/// Quotient and remainder put the dividend together again, and the remainder has the divisor's sign.
#[test]
fn quotients_meet_the_law() {
    let ends = near_the_ends();
    let pairs = ends.iter().flat_map(|&a| ends.iter().map(move |&b| (a, b)));
    for (a, b) in random_pairs().chain(pairs) {
        let (quotient, remainder) = (div(a, b), modulo(a, b));
        if quotient.kind != INTEGER || remainder.kind != INTEGER {
            assert!(b == 0 || (a == i64::MIN && b == -1), "{a} by {b}");
            continue;
        }
        let [a, b, q, r] = [a, b, quotient.number, remainder.number].map(i128::from);
        assert!(r == 0 || r.signum() == b.signum(), "{a} MOD {b} is {r}");
        assert!(r.abs() < b.abs(), "{a} MOD {b} is {r}");
        assert_eq!(q * b + r * b.signum(), a, "{a} by {b} is {q} and {r}");
    }
}
