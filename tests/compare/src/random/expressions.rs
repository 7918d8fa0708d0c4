//! Expressions, written rule by rule of the grammar with the kind that each must have.

use super::model::{Kind, Schema};
use super::source::{Slip, Source};

/// The most parentheses and intervals that may be open at once.
const DEEPEST: usize = 64;
const EDGES: [&str; 16] = [
    "0", "1", "2", "3", "7", "62", "63", "64", "0005", "4294967296", "3037000499", "3037000500", "4611686018427387904",
    "9223372036854775806", "9223372036854775807", "0009223372036854775807",
];
const OTHERS: [&str; 9] = ["PI", "CONST_E", "1.5", "0.", "12.E-3", "1.e+10", "'it''s'", "''", "'(* -- %\"'"];
/// Strings of which some begin with others, or differ in the case of a letter.
const ALIKE: [&str; 12] = ["", "", "a", "A", "ab", "aB", "abc", "b", "it's", "'", "''", " "];
/// Bytes of long strings.
const LONG: [usize; 9] = [1, 55, 56, 127, 128, 200, 254, 255, 255];
const RELATIONS: [&str; 8] = ["<", ">", "<=", ">=", "<>", "=", ":<>:", ":=:"];
const SUMS: [&str; 4] = ["+", "-", "OR", "XOR"];
const TERMS: [&str; 5] = ["*", "DIV", "MOD", "AND", "/"];
const SIGNS: [&str; 3] = ["+", "-", "NOT"];

/// The names that an expression may use. Only a typed one, a constant's, must fit in kind.
pub struct Scope<'a> {
    pub schema: &'a Schema,
    pub names: Vec<(Option<Kind>, &'a str)>,
    /// Names that mean a label here, used only by a slip; and those that mean several attributes or items.
    pub labels: Vec<&'a str>,
    pub ambiguous: Vec<&'a str>,
    pub typed: bool,
}

/// A rule of the grammar, as the parts of a chain need it.
type Part<'a> = fn(&mut Writer<'a>, &Scope, Kind, usize);

pub struct Writer<'a> {
    pub source: &'a mut Source,
    pub out: Vec<String>,
    /// Bytes written so far in all, and how many are wanted.
    pub written: usize,
    pub size: usize,
    open: usize,
    /// Whether operands near the ends of the range are common.
    edgy: bool,
    /// A leaf is `?` once in so many.
    unknown: usize,
}

impl<'a> Writer<'a> {
    pub fn new(source: &'a mut Source, size: usize) -> Self {
        Writer { source, out: Vec::new(), written: 0, size, open: 0, edgy: false, unknown: 0 }
    }

    pub fn put(&mut self, token: &str) {
        self.written += token.len() + 1;
        self.out.push(token.into());
    }

    pub fn puts(&mut self, tokens: &[&str]) {
        tokens.iter().for_each(|token| self.put(token));
    }

    /// A whole expression of this kind, short once the file is full.
    pub fn whole(&mut self, scope: &Scope, kind: Kind) {
        let rng = &mut self.source.rng;
        self.edgy = rng.one_in(3);
        self.unknown = *rng.pick(&[2, 10, 40, 40, 40]);
        let most = if rng.one_in(16) { 60 } else { 7 };
        let fuel = rng.between(1, most.min(1 + self.size.saturating_sub(self.written) / 8));
        if fuel > 1 && self.source.rng.one_in(24) {
            let count = *self.source.rng.pick(&[5, DEEPEST - 2, DEEPEST]);
            self.nest(scope, kind, count);
        } else if kind == Kind::Logical && fuel > 2 && self.source.rng.one_in(8) {
            self.interval(scope, fuel);
        } else {
            self.expression(scope, kind, fuel);
        }
    }

    /// A short expression in so many parentheses.
    fn nest(&mut self, scope: &Scope, kind: Kind, count: usize) {
        self.open += count;
        (0..count).for_each(|_| self.put("("));
        self.expression(scope, kind, 2);
        (0..count).for_each(|_| self.put(")"));
        self.open -= count;
    }

    fn expression(&mut self, scope: &Scope, kind: Kind, fuel: usize) {
        let kind = self.bend(scope, kind);
        if kind != Kind::Logical || fuel < 2 || self.source.rng.one_in(2) {
            return self.sum(scope, kind, fuel);
        }
        let of = self.any_kind(scope);
        self.sum(scope, of, fuel / 2);
        let relation = *self.source.rng.pick(&RELATIONS);
        self.put(relation);
        self.sum(scope, of, fuel - fuel / 2);
    }

    fn sum(&mut self, scope: &Scope, kind: Kind, fuel: usize) {
        let fitting = match kind {
            Kind::Integer => &SUMS[..2],
            Kind::Binary | Kind::String => &SUMS[..1],
            Kind::Logical => &SUMS[2..],
            Kind::Item(_) => &[],
        };
        self.chain(scope, kind, fuel, (fitting, &SUMS), Self::term);
    }

    fn term(&mut self, scope: &Scope, kind: Kind, fuel: usize) {
        let fitting = match kind {
            Kind::Integer if self.source.slip(Slip::Unevaluated) => &TERMS[4..],
            Kind::Integer => &TERMS[..3],
            Kind::Logical => &TERMS[3..4],
            _ => &[],
        };
        self.chain(scope, kind, fuel, (fitting, &TERMS), Self::factor);
    }

    /// One or more parts with operators between them; untyped and by a slip, any operators.
    fn chain(&mut self, scope: &Scope, kind: Kind, fuel: usize, (fitting, all): (&[&str], &[&str]), part: Part<'a>) {
        let any = !scope.typed && self.source.rng.one_in(4) || self.source.slip(Slip::Misfit);
        let ops = if any { all } else { fitting };
        let parts = if ops.is_empty() { 1 } else { self.source.rng.between(1, fuel.clamp(1, 3)) };
        part(self, scope, kind, fuel / parts);
        for _ in 1..parts {
            let op = *self.source.rng.pick(ops);
            self.put(op);
            part(self, scope, kind, fuel / parts);
        }
    }

    fn factor(&mut self, scope: &Scope, kind: Kind, fuel: usize) {
        if kind != Kind::Integer || fuel < 2 || !self.source.rng.one_in(4) {
            return self.operand(scope, kind, fuel);
        }
        if self.source.rng.one_in(2) {
            return self.power();
        }
        self.operand(scope, kind, fuel / 2);
        self.put("**");
        self.operand(scope, kind, fuel / 2);
    }

    /// A power near an end of the range, or a negative one.
    fn power(&mut self) {
        let rng = &mut self.source.rng;
        let base = *rng.pick(&["0", "1", "2", "2", "2", "3", "10", "3037000499", "3037000500"]);
        let by = *rng.pick(&["0", "1", "2", "3", "18", "19", "39", "40", "62", "63", "64", "9223372036854775807"]);
        let signs = [rng.one_in(2), rng.one_in(5)].map(|signed| if signed { &["-"] as &[_] } else { &[] });
        self.puts(signs[0]);
        self.puts(&[base, "**"]);
        self.puts(signs[1]);
        self.put(by);
    }

    fn operand(&mut self, scope: &Scope, kind: Kind, fuel: usize) {
        let kind = self.bend(scope, kind);
        let signed = self.signed(scope, kind);
        if fuel < 2 || self.open >= DEEPEST || self.source.rng.one_in(4) {
            return self.leaf(scope, kind, signed);
        }
        if !signed && kind == Kind::Logical && fuel > 2 && self.source.rng.one_in(3) {
            return self.interval(scope, fuel);
        }
        self.open += 1;
        self.put("(");
        self.expression(scope, kind, fuel - 1);
        self.put(")");
        self.open -= 1;
    }

    /// Perhaps a sign or NOT; what follows must then be no `type.item` and no interval.
    fn signed(&mut self, scope: &Scope, kind: Kind) -> bool {
        let any = !scope.typed && self.source.rng.one_in(8) || self.source.slip(Slip::Misfit);
        let signs = match kind {
            _ if any => &SIGNS[..],
            Kind::Integer => &SIGNS[..2],
            Kind::Logical => &SIGNS[2..],
            _ => return false,
        };
        let signed = any || self.source.rng.one_in(4);
        if signed {
            let sign = *self.source.rng.pick(signs);
            self.put(sign);
        }
        signed
    }

    /// Low, item and high of one kind; but where the item is `?`, low and high need not agree.
    fn interval(&mut self, scope: &Scope, fuel: usize) {
        let low = self.any_kind(scope);
        let unknown = self.source.rng.one_in(8);
        let high = if unknown { self.any_kind(scope) } else { low };
        self.open += 1;
        self.put("{");
        for (kind, after) in [(Some(low), "<"), ((!unknown).then_some(low), "<"), (Some(high), "}")] {
            match kind.map(|kind| self.bend(scope, kind)) {
                Some(kind) => self.sum(scope, kind, fuel / 3),
                None => self.put("?"),
            }
            let wide = after == "<" && self.source.rng.one_in(2);
            self.put(if wide { "<=" } else { after });
        }
        self.open -= 1;
    }

    fn leaf(&mut self, scope: &Scope, kind: Kind, signed: bool) {
        if self.source.rng.one_in(self.unknown) {
            return self.put("?");
        }
        if !scope.typed && self.source.rng.one_in(8) || self.source.slip(Slip::Unevaluated) {
            let other = *self.source.rng.pick(&OTHERS);
            return self.put(other);
        }
        if !scope.typed && self.source.rng.one_in(12) {
            return self.put("SELF");
        }
        if self.source.slip(Slip::Name) {
            return self.wrong(scope, signed);
        }
        if !scope.ambiguous.is_empty() && self.source.slip(Slip::Clash) {
            let name = *self.source.rng.pick(&scope.ambiguous);
            return self.put(name);
        }
        if self.source.slip(Slip::ConstantCycle) && !scope.schema.constants.is_empty() {
            let constant = self.source.rng.pick(&scope.schema.constants);
            return self.put(&constant.name);
        }
        match self.name(scope, kind) {
            Some(name) => self.put(name),
            None => self.literal(scope, kind, signed),
        }
    }

    /// A name in this scope of this kind, if a few tries find one.
    fn name<'s>(&mut self, scope: &Scope<'s>, kind: Kind) -> Option<&'s str> {
        let rng = &mut self.source.rng;
        if scope.names.is_empty() || rng.one_in(3) {
            return None;
        }
        let fits = |(of, _): &(Option<Kind>, &str)| !scope.typed || *of == Some(kind);
        let recent = self.source.near && rng.one_in(2);
        let latest = recent.then(|| scope.names.iter().rev().take(8).copied().find(fits)).flatten();
        latest.or_else(|| (0..4).map(|_| *rng.pick(&scope.names)).find(fits)).map(|(_, name)| name)
    }

    /// A name or SELF that need not be right here.
    fn wrong(&mut self, scope: &Scope, signed: bool) {
        let (name, item) = (self.source.any_name(), self.source.any_name());
        let types = &scope.schema.types;
        match self.source.rng.below(8) {
            0 => self.put("SELF"),
            1 if !signed => self.puts(&[&name, ".", &item]),
            2 | 3 if !signed && !types.is_empty() => {
                let name = &self.source.rng.pick(types).name;
                self.puts(&[name, ".", &item]);
            }
            4 if !types.is_empty() => {
                let name = &self.source.rng.pick(types).name;
                self.put(name);
            }
            5 => self.an_item(scope, &name),
            6 | 7 if !scope.labels.is_empty() => {
                let name = *self.source.rng.pick(&scope.labels);
                self.put(name);
            }
            _ => self.put(&name),
        }
    }

    /// The bare name of an item of any enumeration, hidden or with two meanings as may be.
    fn an_item(&mut self, scope: &Scope, otherwise: &str) {
        let rng = &mut self.source.rng;
        match scope.schema.enumerations.as_slice() {
            [] => self.put(otherwise),
            all => {
                let of = *rng.pick(all);
                let item = rng.pick(scope.schema.items(of));
                self.put(item);
            }
        }
    }

    fn literal(&mut self, scope: &Scope, kind: Kind, signed: bool) {
        match kind {
            Kind::Integer => self.integer(signed),
            Kind::Logical => {
                let word = *self.source.rng.pick(&["TRUE", "FALSE", "UNKNOWN"]);
                self.put(word);
            }
            Kind::Binary => self.binary(),
            Kind::String => self.string(),
            Kind::Item(_) if signed => self.put("?"),
            Kind::Item(of) => {
                let item = self.source.rng.pick(scope.schema.items(of));
                self.puts(&[&scope.schema.types[of].name, ".", item]);
            }
        }
    }

    fn integer(&mut self, signed: bool) {
        let rng = &mut self.source.rng;
        if self.edgy && !signed && self.open < DEEPEST && rng.one_in(8) {
            self.puts(&["(", "-", "9223372036854775807", "-", "1", ")"]);
        } else if self.edgy && rng.one_in(2) {
            let edge = *rng.pick(&EDGES);
            self.put(edge);
        } else {
            let number = rng.below(13).to_string();
            self.put(&number);
        }
    }

    fn binary(&mut self) {
        let rng = &mut self.source.rng;
        let bits = if self.edgy { *rng.pick(&[1, 2, 31, 32, 33, 61, 62, 63]) } else { rng.between(1, 5) };
        let token: String = std::iter::once('%').chain((0..bits).map(|_| *rng.pick(&['0', '1']))).collect();
        self.put(&token);
    }

    /// A string that others are equal to or begin with, one of any bytes, or one that joins come near the longest with.
    fn string(&mut self) {
        let rng = &mut self.source.rng;
        let value: String = match rng.below(4) {
            0 => rng.pick(&ALIKE).to_string(),
            1 | 2 if self.edgy => {
                let (byte, count) = (*rng.pick(&['a', 'A', '\'']), *rng.pick(&LONG));
                std::iter::repeat_n(byte, count).collect()
            }
            _ => (0..rng.below(12)).map(|_| char::from(rng.between(32, 126) as u8)).collect(),
        };
        self.put(&format!("'{}'", value.replace('\'', "''")));
    }

    /// The kind asked for, or another where kinds do not count or by a slip.
    fn bend(&mut self, scope: &Scope, kind: Kind) -> Kind {
        let bent = !scope.typed && self.source.rng.one_in(3) || self.source.slip(Slip::Misfit);
        if bent {
            self.any_kind(scope)
        } else {
            kind
        }
    }

    fn any_kind(&mut self, scope: &Scope) -> Kind {
        if self.source.string_is_due() {
            return Kind::String;
        }
        match self.source.rng.below(8) {
            0..=2 => Kind::Integer,
            3 | 4 => Kind::Logical,
            5 => Kind::Binary,
            _ if scope.schema.enumerations.is_empty() => Kind::Integer,
            _ => Kind::Item(*self.source.rng.pick(&scope.schema.enumerations)),
        }
    }
}
