//! The proved operators on answers of every kind give what the reference gives.

use compare::random::Rng;
use proved::{applied, between, combined, held, Operator};
use reference::evaluation::{self, Answer, End, Logical, Value};
use reference::kinds::Underlying;
use reference::terminals::Terminal;
use reference::{AnswerRow, MAX_STRING};

const RANDOM: usize = 200_000;

const ARITHMETIC: [Terminal; 5] = [Terminal::Minus, Terminal::Times, Terminal::Div, Terminal::Mod, Terminal::Power];
const RELATIONS: [Terminal; 8] = [
    Terminal::Less,
    Terminal::Greater,
    Terminal::LessOrEqual,
    Terminal::GreaterOrEqual,
    Terminal::NotEqual,
    Terminal::Equal,
    Terminal::InstanceNotEqual,
    Terminal::InstanceEqual,
];
const CONNECTIVES: [Terminal; 3] = [Terminal::And, Terminal::Or, Terminal::Xor];

/// Each operator by its place beside the terminal that it is written with.
fn placed(terminals: &[Terminal], operator: fn(u8) -> Operator) -> Vec<(Operator, Terminal)> {
    (0..).map(operator).zip(terminals.iter().copied()).collect()
}

/// What every operand may come to besides a value of its kind.
const WITHOUT_VALUE: [Answer; 5] = [
    Ok(Value::Indeterminate),
    Err(End::OutOfRange),
    Err(End::ZeroDivisor),
    Err(End::NegativePower),
    Err(End::UnknownBoolean),
];

/// Operands of one kind, and the operators that take them.
struct Group {
    operands: Vec<Answer>,
    operators: Vec<(Operator, Terminal)>,
}

fn group(values: impl Iterator<Item = Value>, operators: &[Vec<(Operator, Terminal)>]) -> Group {
    let operators = operators.iter().flatten().copied().chain(placed(&RELATIONS, Operator::Relation)).collect();
    Group { operands: values.map(Ok).chain(WITHOUT_VALUE).collect(), operators }
}

fn binary(bits: u64, length: u32) -> Value {
    Value::Binary { bits: bits & ((1 << length) - 1), length }
}

const INTEGERS: [i64; 17] = [
    0,
    1,
    -1,
    2,
    -2,
    3,
    -7,
    62,
    63,
    64,
    3_037_000_499,
    3_037_000_500,
    -3_037_000_500,
    1 << 62,
    i64::MAX,
    i64::MIN + 1,
    i64::MIN,
];
const LENGTHS: [u32; 9] = [1, 2, 3, 7, 31, 32, 33, 62, 63];

/// A string of so many bytes. A row tells its length alone, and so these operators compare strings as if all their bytes were 0.
fn string(length: usize) -> Value {
    Value::String(vec![0; length])
}

const STRING_LENGTHS: [usize; 13] = [0, 1, 2, 3, 77, 126, 127, 128, 129, 252, 253, 254, 255];

fn groups() -> [Group; 5] {
    let plus = vec![(Operator::Plus, Terminal::Plus)];
    let integers = INTEGERS.into_iter().map(Value::Integer);
    let patterns = [0, u64::MAX, 0x5555_5555_5555_5555, 0x8000_0001_4000_0001];
    let binaries = LENGTHS.into_iter().flat_map(|length| patterns.map(|bits| binary(bits, length)));
    let logicals = [Logical::False, Logical::Unknown, Logical::True].map(Value::Logical);
    let items = [0, 1, 77, u32::MAX - 1, u32::MAX].map(Value::Item);
    [
        group(integers, &[plus.clone(), placed(&ARITHMETIC, Operator::Arithmetic)]),
        group(logicals.into_iter(), &[placed(&CONNECTIVES, Operator::Connective)]),
        group(binaries, std::slice::from_ref(&plus)),
        group(STRING_LENGTHS.into_iter().map(string), &[plus]),
        group(items.into_iter(), &[]),
    ]
}

/// The row of an answer; a string begins at 0.
fn row(answer: &Answer) -> AnswerRow {
    evaluation::row(answer, 0)
}

/// The row of an operand; a string begins anywhere.
fn operand(answer: &Answer) -> AnswerRow {
    evaluation::row(answer, 77_777)
}

fn hold((operator, terminal): (Operator, Terminal), a: &Answer, b: &Answer) -> AnswerRow {
    let expected = row(&evaluation::combined(terminal, a.clone(), b.clone()));
    assert_eq!(combined(operator, operand(a), operand(b)), expected, "{a:?} {terminal:?} {b:?}");
    expected
}

#[test]
fn operators_on_operands_of_one_kind() {
    for Group { operands, operators } in groups() {
        for a in &operands {
            for b in &operands {
                operators.iter().for_each(|&operator| {
                    hold(operator, a, b);
                });
            }
        }
    }
}

/// Integers of every size and sign, binaries and strings of every length; many have answers and many have none.
#[test]
fn operators_on_random_operands() {
    let mut rng = Rng::new(0);
    let [integers, _, binaries, strings, _] = groups();
    let (mut values, mut ends) = ([0; 3], [0; 3]);
    for _ in 0..RANDOM {
        let mut integer = || Ok(Value::Integer((rng.draw() as i64) >> rng.below(64)));
        let (a, b) = (integer(), integer());
        let mut bits = || Ok(binary(rng.draw(), 1 + rng.below(63) as u32));
        let (m, n) = (bits(), bits());
        let mut bytes = || Ok(string(rng.below(MAX_STRING + 1)));
        let (s, t) = (bytes(), bytes());
        for (i, (group, a, b)) in [(&integers, a, b), (&binaries, m, n), (&strings, s, t)].into_iter().enumerate() {
            let row = hold(*rng.pick(&group.operators), &a, &b);
            *(if row.kind < 16 { &mut values[i] } else { &mut ends[i] }) += 1;
        }
    }
    assert!(values.iter().all(|&often| often > RANDOM / 3), "{values:?} values");
    assert!(ends.iter().all(|&often| often > RANDOM / 30), "{ends:?} ends");
}

/// Strings of every two lengths are joined up to 255 bytes, and above that come to end 16.
#[test]
fn joined_strings() {
    let text = |length: usize| AnswerRow { kind: 5, number: 9, length: length as u32 };
    for (m, n) in (0..=MAX_STRING).flat_map(|m| (0..=MAX_STRING).map(move |n| (m, n))) {
        let wanted = if m + n <= 255 { (5, m + n) } else { (16, 0) };
        let AnswerRow { kind, number, length } = combined(Operator::Plus, text(m), text(n));
        assert_eq!((kind, length as usize, number), (wanted.0, wanted.1, 0), "{m} and {n}");
    }
}

#[test]
fn signs() {
    let [integers, logicals, ..] = groups();
    for (operands, signs) in [
        (integers.operands, &[(0, Terminal::Plus), (1, Terminal::Minus)][..]),
        (logicals.operands, &[(2, Terminal::Not)]),
    ] {
        for &(sign, terminal) in signs {
            for a in &operands {
                assert_eq!(
                    applied(sign, operand(a)),
                    row(&evaluation::applied(terminal, a.clone())),
                    "{terminal:?} {a:?}"
                );
            }
        }
    }
}

#[test]
fn intervals() {
    let relations: Vec<(u8, Terminal)> = (0..).zip(RELATIONS).collect();
    for Group { operands, .. } in groups() {
        for (low, item) in operands.iter().flat_map(|a| operands.iter().map(move |b| (a, b))) {
            for high in &operands {
                for (first, left) in &relations {
                    for (second, right) in &relations {
                        let [a, b, c] = [low, item, high].map(Answer::clone);
                        let expected = row(&evaluation::between(*left, *right, a, b, c));
                        let found = between(*first, *second, operand(low), operand(item), operand(high));
                        assert_eq!(found, expected, "{low:?} {left:?} {item:?} {right:?} {high:?}");
                    }
                }
            }
        }
    }
}

#[test]
fn what_constants_hold() {
    for Group { operands, .. } in groups() {
        for a in &operands {
            assert_eq!(
                held(true, operand(a)),
                row(&evaluation::declared(a.clone(), Underlying::Boolean)),
                "BOOLEAN, {a:?}"
            );
            assert_eq!(
                held(false, operand(a)),
                row(&evaluation::declared(a.clone(), Underlying::Logical)),
                "LOGICAL, {a:?}"
            );
        }
    }
}

/// A row of no answer stands for `?`: of no kind, an item of no node, a binary that is too long.
#[test]
fn rows_of_no_answer() {
    let unknown = |kind, number, length| {
        let row = AnswerRow { kind, number, length };
        assert_eq!(applied(0, row), AnswerRow::default(), "{row:?}");
    };
    (6..16).chain(20..=255).for_each(|kind| unknown(kind, 7, 7));
    [1 << 32, i64::MAX].into_iter().for_each(|node| unknown(4, node, 0));
    (64..=255).for_each(|length| unknown(3, 7, length));
}

/// A row of kind 5 is a string of its length, wherever it begins.
#[test]
fn rows_of_strings() {
    for (number, length) in
        [0, 7, -1, 1 << 32, i64::MAX, i64::MIN].into_iter().flat_map(|n| (0..=255).map(move |l| (n, l)))
    {
        assert_eq!(held(false, AnswerRow { kind: 5, number, length }), AnswerRow { kind: 5, number: 0, length });
    }
}
