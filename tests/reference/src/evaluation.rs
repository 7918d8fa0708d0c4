//! The answers of constants.

use std::cmp::Ordering;

use crate::kinds::Underlying;
use crate::names::Names;
use crate::parser::kind;
use crate::terminals::Terminal;
use crate::{AnswerRow, File, MAX_STRING};

/// The ways in which an evaluation ends without a value, by their numbers.
#[derive(Clone, Copy, Debug, PartialEq, Eq)]
#[repr(u8)]
pub enum End {
    /// No 64-bit signed integer, or what is joined is too long: a binary of more than 63 bits, a string of more than 255 bytes.
    OutOfRange = 16,
    ZeroDivisor = 17,
    NegativePower = 18,
    UnknownBoolean = 19,
}

/// The three logical values in their fixed order.
#[derive(Clone, Copy, Debug, PartialEq, Eq, PartialOrd, Ord)]
pub enum Logical {
    False,
    Unknown,
    True,
}

/// A value, or `?`.
#[derive(Clone, Debug, PartialEq, Eq)]
pub enum Value {
    Indeterminate,
    Integer(i64),
    Logical(Logical),
    Binary { bits: u64, length: u32 },
    String(Vec<u8>),
    Item(u32),
}

pub type Answer = Result<Value, End>;

const MAX_BITS: u32 = 63;

impl Logical {
    fn not(self) -> Self {
        match self {
            Logical::False => Logical::True,
            Logical::Unknown => Logical::Unknown,
            Logical::True => Logical::False,
        }
    }

    fn xor(self, other: Self) -> Self {
        if self == Logical::Unknown || other == Logical::Unknown {
            return Logical::Unknown;
        }
        (self != other).into()
    }
}

impl From<bool> for Logical {
    fn from(truth: bool) -> Self {
        if truth {
            Logical::True
        } else {
            Logical::False
        }
    }
}

impl Value {
    /// To a logical operator `?` counts as UNKNOWN; typing leaves nothing else here.
    fn logical(&self) -> Logical {
        match *self {
            Value::Logical(value) => value,
            _ => Logical::Unknown,
        }
    }
}

/// The answer rows of all constants, in text order, and the bytes of the strings among them, one behind the other.
#[derive(Clone, Debug, Default, PartialEq, Eq)]
pub struct Answers {
    pub rows: Vec<AnswerRow>,
    pub room: Vec<u8>,
}

impl Answers {
    fn add(&mut self, answer: &Answer) {
        self.rows.push(row(answer, self.room.len()));
        if let Ok(Value::String(bytes)) = answer {
            self.room.extend_from_slice(bytes);
        }
    }
}

/// The answers of all constants.
pub fn answers(file: &File, names: &Names, underlying: &[Underlying]) -> Answers {
    let outline = file.outline;
    let known = vec![Ok(Value::Indeterminate); outline.declarations.len()];
    let mut evaluator = Evaluator { file, names, known, stack: Vec::new() };
    for &number in &names.constant_order {
        let declaration = &outline.declarations[number as usize];
        if file.kind(declaration.node) == kind::CONSTANT {
            let answer = evaluator.expression(declaration.node);
            evaluator.known[number as usize] = declared(answer, underlying[number as usize]);
        }
    }
    let mut answers = Answers { rows: Vec::with_capacity(outline.constants.len()), room: Vec::new() };
    outline.constants.iter().for_each(|&constant| answers.add(&evaluator.known[constant as usize]));
    answers
}

/// UNKNOWN is no member of BOOLEAN.
pub fn declared(answer: Answer, underlying: Underlying) -> Answer {
    if underlying == Underlying::Boolean && answer == Ok(Value::Logical(Logical::Unknown)) {
        return Err(End::UnknownBoolean);
    }
    answer
}

/// The row of an answer; a string's bytes lie from `start` on.
pub fn row(answer: &Answer, start: usize) -> AnswerRow {
    match *answer {
        Ok(Value::Indeterminate) => AnswerRow::default(),
        Ok(Value::Integer(number)) => AnswerRow { kind: 1, number, length: 0 },
        Ok(Value::Logical(value)) => AnswerRow { kind: 2, number: value as i64, length: 0 },
        Ok(Value::Binary { bits, length }) => AnswerRow { kind: 3, number: bits as i64, length },
        Ok(Value::String(ref bytes)) => AnswerRow { kind: 5, number: start as i64, length: bytes.len() as u32 },
        Ok(Value::Item(node)) => AnswerRow { kind: 4, number: i64::from(node), length: 0 },
        Err(end) => AnswerRow { kind: end as u8, number: 0, length: 0 },
    }
}

/// Walks expressions in node order with a stack of the answers of operands.
struct Evaluator<'a> {
    file: &'a File<'a>,
    names: &'a Names,
    /// The answers of the constants evaluated so far, by declaration.
    known: Vec<Answer>,
    stack: Vec<Answer>,
}

impl Evaluator<'_> {
    /// The answer of a constant's expression, which lies between its type and its own node.
    fn expression(&mut self, constant: u32) -> Answer {
        let first = constant + 2 - self.file.nodes[constant as usize].size;
        for number in first..constant {
            if let Some(answer) = self.node(number) {
                self.stack.push(answer);
            }
        }
        self.pop()
    }

    fn pop(&mut self) -> Answer {
        self.stack.pop().unwrap_or(Ok(Value::Indeterminate))
    }

    /// Takes the answers of a node's operands and gives its own; an interval's operator has none.
    fn node(&mut self, number: u32) -> Option<Answer> {
        Some(match self.file.kind(number) {
            kind::INTEGER => Ok(Value::Integer(integer(self.text(number)))),
            kind::BINARY => Ok(binary(self.text(number))),
            kind::LOGICAL => Ok(Value::Logical(logical(self.file.terminal(number)))),
            kind::REAL_OR_STRING => Ok(Value::String(string(self.text(number)))),
            kind::NAME | kind::QUALIFIED_ITEM => self.name(number),
            kind::UNARY => {
                let operand = self.pop();
                applied(self.file.terminal(number), operand)
            }
            kind::BINARY_OPERATOR => {
                let right = self.pop();
                let left = self.pop();
                combined(self.file.terminal(number), left, right)
            }
            kind::INTERVAL => self.interval(number),
            kind::INTERVAL_OPERATOR => return None,
            _ => Ok(Value::Indeterminate),
        })
    }

    fn text(&self, number: u32) -> &[u8] {
        self.file.text(self.file.nodes[number as usize].token)
    }

    fn name(&self, number: u32) -> Answer {
        let meaning = self.names.bindings[number as usize] - 1;
        match self.file.kind(meaning) {
            kind::CONSTANT => self.known[self.file.outline.owner[meaning as usize] as usize].clone(),
            _ => Ok(Value::Item(meaning)),
        }
    }

    fn interval(&mut self, number: u32) -> Answer {
        let high = self.pop();
        let item = self.pop();
        let low = self.pop();
        let size = |node: u32| self.file.nodes[node as usize].size;
        // The children from the right: high, operator, item, operator, low.
        let second = number - 1 - size(number - 1);
        let first = second - 1 - size(second - 1);
        between(self.file.terminal(first), self.file.terminal(second), low, item, high)
    }
}

/// The left operand's end comes first, then the right one's.
pub fn combined(operator: Terminal, left: Answer, right: Answer) -> Answer {
    left.and_then(|left| right.and_then(|right| operate(operator, left, right)))
}

pub fn applied(operator: Terminal, operand: Answer) -> Answer {
    operand.and_then(|value| unary(operator, value))
}

/// The AND of the two relations; the ends of low, item and high come in this order.
pub fn between(first: Terminal, second: Terminal, low: Answer, item: Answer, high: Answer) -> Answer {
    let (low, item, high) = (low?, item?, high?);
    Ok(Value::Logical(relation(first, &low, &item).min(relation(second, &item, &high))))
}

/// The token reader has seen to it that the value fits.
fn integer(digits: &[u8]) -> i64 {
    digits.iter().fold(0, |value: i64, &digit| value.wrapping_mul(10).wrapping_add(i64::from(digit & 15)))
}

fn binary(literal: &[u8]) -> Value {
    let digits = literal.get(1..).unwrap_or_default();
    let bits = digits.iter().fold(0, |bits, &digit| bits << 1 | u64::from(digit & 1));
    Value::Binary { bits, length: digits.len() as u32 }
}

/// The bytes between the outer quotes, each pair of quotes made one.
fn string(literal: &[u8]) -> Vec<u8> {
    let mut rest = literal.get(1..literal.len() - 1).unwrap_or_default();
    let mut value = Vec::with_capacity(rest.len());
    while let Some(quote) = rest.iter().position(|&byte| byte == b'\'') {
        value.extend_from_slice(&rest[..=quote]);
        rest = rest.get(quote + 2..).unwrap_or_default();
    }
    value.extend_from_slice(rest);
    value
}

fn logical(word: Terminal) -> Logical {
    match word {
        Terminal::True => Logical::True,
        Terminal::False => Logical::False,
        _ => Logical::Unknown,
    }
}

fn unary(operator: Terminal, operand: Value) -> Answer {
    match (operator, &operand) {
        (Terminal::Not, _) => Ok(Value::Logical(operand.logical().not())),
        (Terminal::Minus, Value::Integer(value)) => in_range(value.checked_neg()),
        _ => Ok(operand),
    }
}

fn in_range(result: Option<i64>) -> Answer {
    result.map(Value::Integer).ok_or(End::OutOfRange)
}

fn operate(operator: Terminal, left: Value, right: Value) -> Answer {
    match operator {
        Terminal::And => Ok(Value::Logical(left.logical().min(right.logical()))),
        Terminal::Or => Ok(Value::Logical(left.logical().max(right.logical()))),
        Terminal::Xor => Ok(Value::Logical(left.logical().xor(right.logical()))),
        _ if operator.is_relation() => Ok(Value::Logical(relation(operator, &left, &right))),
        _ => match (left, right) {
            (Value::Integer(left), Value::Integer(right)) => arithmetic(operator, left, right),
            (Value::Binary { bits, length }, Value::Binary { bits: more, length: longer }) => {
                join(bits, length, more, longer)
            }
            (Value::String(left), Value::String(right)) => join_strings(left, &right),
            _ => Ok(Value::Indeterminate),
        },
    }
}

fn arithmetic(operator: Terminal, left: i64, right: i64) -> Answer {
    match operator {
        Terminal::Plus => in_range(left.checked_add(right)),
        Terminal::Minus => in_range(left.checked_sub(right)),
        Terminal::Times => in_range(left.checked_mul(right)),
        Terminal::Div | Terminal::Mod if right == 0 => Err(End::ZeroDivisor),
        // For a divisor below 0 Euclid's quotient is minus the floored quotient by the divisor's magnitude, as wanted.
        Terminal::Div => in_range(left.checked_div_euclid(right)),
        Terminal::Mod => Ok(Value::Integer(modulo(left, right))),
        _ => power(left, right),
    }
}

/// Euclid's remainder, with the sign of the divisor.
fn modulo(left: i64, right: i64) -> i64 {
    let remainder = left.wrapping_rem_euclid(right);
    if right < 0 {
        -remainder
    } else {
        remainder
    }
}

fn power(base: i64, exponent: i64) -> Answer {
    if exponent < 0 {
        return Err(End::NegativePower);
    }
    match base {
        // Powers of these never grow: only whether the exponent is 0 and its parity matter.
        -1..=1 => Ok(Value::Integer(base.pow(if exponent == 0 { 0 } else { 2 - (exponent % 2) as u32 }))),
        _ => in_range(u32::try_from(exponent).ok().and_then(|exponent| base.checked_pow(exponent))),
    }
}

fn join(left: u64, left_length: u32, right: u64, right_length: u32) -> Answer {
    let length = left_length + right_length;
    if length > MAX_BITS {
        return Err(End::OutOfRange);
    }
    Ok(Value::Binary { bits: left << right_length | right, length })
}

fn join_strings(mut left: Vec<u8>, right: &[u8]) -> Answer {
    if left.len() + right.len() > MAX_STRING {
        return Err(End::OutOfRange);
    }
    left.extend_from_slice(right);
    Ok(Value::String(left))
}

fn relation(operator: Terminal, left: &Value, right: &Value) -> Logical {
    let Some(order) = compare(left, right) else { return Logical::Unknown };
    let holds = match operator {
        Terminal::Less => order.is_lt(),
        Terminal::LessOrEqual => order.is_le(),
        Terminal::Greater => order.is_gt(),
        Terminal::GreaterOrEqual => order.is_ge(),
        Terminal::Equal | Terminal::InstanceEqual => order.is_eq(),
        _ => order.is_ne(),
    };
    holds.into()
}

/// The order of two values of one kind; none if one is `?`.
fn compare(left: &Value, right: &Value) -> Option<Ordering> {
    match (left, right) {
        (Value::Integer(left), Value::Integer(right)) => Some(left.cmp(right)),
        (Value::Logical(left), Value::Logical(right)) => Some(left.cmp(right)),
        // Byte by byte from the left, a proper prefix first.
        (Value::String(left), Value::String(right)) => Some(left.cmp(right)),
        // Items of one enumeration have their nodes in the order of their declaration.
        (Value::Item(left), Value::Item(right)) => Some(left.cmp(right)),
        (&Value::Binary { bits, length }, &Value::Binary { bits: other, length: longer }) => {
            Some(from_the_left(bits, length).cmp(&from_the_left(other, longer)))
        }
        _ => None,
    }
}

/// The bits moved to the left end; the length then puts a proper prefix first.
fn from_the_left(bits: u64, length: u32) -> (u64, u32) {
    (bits << (64 - length), length)
}
