//! The kinds of constants and of their expressions: replies 14 and 15.

use crate::names::Names;
use crate::outline::Sort;
use crate::parser::kind;
use crate::terminals::Terminal;
use crate::{Fault, File, Level};

const NOT_EVALUATED: u32 = 14;
const MISFIT: u32 = 15;

/// What a declared type comes down to, through all renamings. An enumeration is told by its declaration.
#[derive(Clone, Copy, Debug, PartialEq, Eq)]
pub enum Underlying {
    Integer,
    Boolean,
    Logical,
    Binary,
    String,
    Enumeration(u32),
    /// NUMBER, REAL, a select, an entity, or what the level does not evaluate.
    NotEvaluated,
}

/// The kind of an expression; `?` fits every kind.
#[derive(Clone, Copy, Debug, PartialEq, Eq)]
pub enum Kind {
    Indeterminate,
    Integer,
    Logical,
    Binary,
    String,
    Item(u32),
}

impl Kind {
    fn fits(self, other: Kind) -> bool {
        self == other || self == Kind::Indeterminate || other == Kind::Indeterminate
    }
}

impl Underlying {
    fn kind(self) -> Option<Kind> {
        match self {
            Underlying::Integer => Some(Kind::Integer),
            Underlying::Boolean | Underlying::Logical => Some(Kind::Logical),
            Underlying::Binary => Some(Kind::Binary),
            Underlying::String => Some(Kind::String),
            Underlying::Enumeration(declaration) => Some(Kind::Item(declaration)),
            Underlying::NotEvaluated => None,
        }
    }
}

/// Checks all constants in node order; gives what each declaration's type comes down to.
pub fn check(file: &File, names: &Names) -> Result<Vec<Underlying>, Fault> {
    let underlying = underlying_types(file, names);
    let mut checker = Checker { file, names, underlying: &underlying, stack: Vec::new() };
    for &constant in &file.outline.constants {
        checker.constant(constant)?;
    }
    Ok(underlying)
}

/// Of each type what it comes down to, of each constant what its declared type does.
pub fn underlying_types(file: &File, names: &Names) -> Vec<Underlying> {
    let outline = file.outline;
    let mut underlying = vec![Underlying::NotEvaluated; outline.declarations.len()];
    for &number in &names.type_order {
        if outline.declarations[number as usize].sort == Sort::Type {
            underlying[number as usize] = underlying_type(file, names, &underlying, number);
        }
    }
    for &number in &outline.constants {
        underlying[number as usize] = base(file, names, &underlying, first_node(file, number));
    }
    underlying
}

/// The first node within a declaration: a constant's type, or that which a type renames.
fn first_node(file: &File, declaration: u32) -> u32 {
    let node = file.outline.declarations[declaration as usize].node;
    node + 1 - file.nodes[node as usize].size
}

fn underlying_type(file: &File, names: &Names, underlying: &[Underlying], declaration: u32) -> Underlying {
    let outline = file.outline;
    if !outline.items(&outline.declarations[declaration as usize]).is_empty() {
        return Underlying::Enumeration(declaration);
    }
    let first = first_node(file, declaration);
    match file.nodes[first as usize].role {
        crate::parser::role::SELECT_NAME => Underlying::NotEvaluated,
        _ => base(file, names, underlying, first),
    }
}

/// What a simple type or the name of a type comes down to.
fn base(file: &File, names: &Names, underlying: &[Underlying], node: u32) -> Underlying {
    match names.bindings[node as usize].checked_sub(1) {
        Some(meaning) => underlying[file.outline.owner[meaning as usize] as usize],
        None => match file.terminal(node) {
            Terminal::Integer => Underlying::Integer,
            Terminal::Boolean => Underlying::Boolean,
            Terminal::Logical => Underlying::Logical,
            Terminal::Binary => Underlying::Binary,
            Terminal::String if file.level >= Level::Strings => Underlying::String,
            _ => Underlying::NotEvaluated,
        },
    }
}

/// Walks expressions in node order with a stack of the kinds of operands.
struct Checker<'a> {
    file: &'a File<'a>,
    names: &'a Names,
    underlying: &'a [Underlying],
    stack: Vec<Kind>,
}

impl Checker<'_> {
    fn constant(&mut self, constant: u32) -> Result<(), Fault> {
        let node = self.file.outline.declarations[constant as usize].node;
        let base = first_node(self.file, constant);
        let declared = self.underlying[constant as usize].kind();
        let Some(declared) = declared else { return Err(self.file.fault(NOT_EVALUATED, base)) };
        for number in base + 1..node {
            self.node(number).map_err(|reply| self.file.fault(reply, number))?;
        }
        if self.pop().fits(declared) {
            Ok(())
        } else {
            Err(self.file.fault(MISFIT, node))
        }
    }

    fn pop(&mut self) -> Kind {
        self.stack.pop().unwrap_or(Kind::Indeterminate)
    }

    /// Takes the kinds of a node's operands and leaves its own; or the reply.
    fn node(&mut self, number: u32) -> Result<(), u32> {
        let kind = match self.file.kind(number) {
            kind::INTEGER => Kind::Integer,
            kind::BINARY => Kind::Binary,
            kind::LOGICAL => Kind::Logical,
            kind::INDETERMINATE => Kind::Indeterminate,
            kind::REAL_OR_STRING => self.real_or_string(self.file.terminal(number))?,
            kind::NAME | kind::QUALIFIED_ITEM => self.name(number)?,
            kind::UNARY => self.unary(self.file.terminal(number))?,
            kind::BINARY_OPERATOR => self.binary(self.file.terminal(number))?,
            kind::INTERVAL => self.interval()?,
            kind::INTERVAL_OPERATOR => return Ok(()),
            _ => return Err(NOT_EVALUATED),
        };
        self.stack.push(kind);
        Ok(())
    }

    /// Of reals, strings, PI and CONST_E only strings are evaluated.
    fn real_or_string(&self, literal: Terminal) -> Result<Kind, u32> {
        let string = self.file.level >= Level::Strings && literal == Terminal::StringLiteral;
        string.then_some(Kind::String).ok_or(NOT_EVALUATED)
    }

    /// A constant or an item.
    fn name(&self, number: u32) -> Result<Kind, u32> {
        let meaning = self.names.bindings[number as usize] - 1;
        let owner = self.file.outline.owner[meaning as usize];
        match self.file.kind(meaning) {
            kind::CONSTANT => self.underlying[owner as usize].kind().ok_or(NOT_EVALUATED),
            _ => Ok(Kind::Item(owner)),
        }
    }

    fn unary(&mut self, operator: Terminal) -> Result<Kind, u32> {
        let taken = if operator == Terminal::Not { Kind::Logical } else { Kind::Integer };
        demand(self.pop().fits(taken), taken)
    }

    fn binary(&mut self, operator: Terminal) -> Result<Kind, u32> {
        let right = self.pop();
        let left = self.pop();
        match operator {
            Terminal::Divide => Err(NOT_EVALUATED),
            Terminal::Plus => plus(left, right),
            Terminal::And | Terminal::Or | Terminal::Xor => {
                demand(left.fits(Kind::Logical) && right.fits(Kind::Logical), Kind::Logical)
            }
            _ if operator.is_relation() => demand(left.fits(right), Kind::Logical),
            _ => demand(left.fits(Kind::Integer) && right.fits(Kind::Integer), Kind::Integer),
        }
    }

    /// Low and item, and item and high, each pair by itself.
    fn interval(&mut self) -> Result<Kind, u32> {
        let high = self.pop();
        let item = self.pop();
        let low = self.pop();
        demand(low.fits(item) && item.fits(high), Kind::Logical)
    }
}

fn demand(fits: bool, kind: Kind) -> Result<Kind, u32> {
    if fits {
        Ok(kind)
    } else {
        Err(MISFIT)
    }
}

/// Two integers, two binaries or two strings; two `?` have the kind of `?`.
fn plus(left: Kind, right: Kind) -> Result<Kind, u32> {
    let kind = if left == Kind::Indeterminate { right } else { left };
    let taken = matches!(kind, Kind::Integer | Kind::Binary | Kind::String | Kind::Indeterminate);
    demand(taken && left.fits(right), kind)
}
