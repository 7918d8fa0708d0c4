//! Faults of kinds: replies 14 and 15.

use super::reader::Role;
use super::tree::{Node, Tree};
use super::Finding;
use crate::codes::NodeKind;
use std::collections::HashMap;
use std::ops::ControlFlow::{self, Break, Continue};

/// The kind of an expression (K4).
#[derive(Clone, Copy, Debug, PartialEq, Eq)]
enum Kind {
    Undetermined,
    Integer,
    Logical,
    Binary,
    String,
    /// Of the enumeration that a type declares.
    Item(Node),
}

impl Kind {
    /// Whether two agree (K6).
    fn agrees(self, other: Kind) -> bool {
        self == other || self == Kind::Undetermined || other == Kind::Undetermined
    }

    fn described(self, tree: &Tree) -> String {
        match self {
            Kind::Undetermined => "`?`".to_string(),
            Kind::Integer => "an integer".to_string(),
            Kind::Logical => "a logical".to_string(),
            Kind::Binary => "a binary".to_string(),
            Kind::String => "a string".to_string(),
            Kind::Item(node) => format!("an item of {}", tree.name(node)),
        }
    }
}

/// What a type comes down to, through all renamings (K2): a kind, or the node for which it is not evaluated.
type Underlying = Result<Kind, Node>;

/// Those that are found, by the node that names the type: a chain of renamings may be long, and its types used often.
type Found = HashMap<Node, Underlying>;

fn underlying(tree: &Tree, base: Node, found: &mut Found) -> Underlying {
    let (mut way, mut last) = (Vec::new(), base);
    // A file that has come so far has no cycle of types; whatever it has, there are no more steps than nodes.
    let end = loop {
        match found.get(&last).map_or_else(|| renamed(tree, last), |&known| Break(known)) {
            Break(end) => break end,
            Continue(_) if way.len() == tree.rows.len() => break Err(last),
            Continue(next) => way.push(std::mem::replace(&mut last, next)),
        }
    };
    found.extend(way.into_iter().map(|node| (node, end)));
    end
}

/// What a type renames, or what it comes down to.
fn renamed(tree: &Tree, base: Node) -> ControlFlow<Underlying, Node> {
    if tree.kind(base) == NodeKind::SimpleType {
        return Break(simple(tree.text(base)).ok_or(base));
    }
    let declared = tree.declared(base, tree.text(base)).filter(|&node| tree.kind(node) == NodeKind::Type);
    let Some(declared) = declared else { return Break(Err(base)) };
    let first = tree.below(declared).start;
    match tree.rows[first].role {
        _ if tree.kind(first) == NodeKind::Item => Break(Ok(Kind::Item(declared))),
        Role::Selected => Break(Err(base)),
        _ => Continue(first),
    }
}

fn simple(word: &[u8]) -> Option<Kind> {
    let kinds = [
        ("INTEGER", Kind::Integer),
        ("BOOLEAN", Kind::Logical),
        ("LOGICAL", Kind::Logical),
        ("BINARY", Kind::Binary),
        ("STRING", Kind::String),
    ];
    kinds.iter().find(|(name, _)| word.eq_ignore_ascii_case(name.as_bytes())).map(|&(_, kind)| kind)
}

/// The type of a constant, which is the first node below it.
fn base(tree: &Tree, constant: Node) -> Node {
    tree.below(constant).start
}

pub fn not_evaluated(tree: &Tree, token: usize) -> Option<Finding> {
    let node = (0..tree.rows.len()).find(|&node| {
        tree.rows[node].token == token
            && matches!(tree.kind(node), NodeKind::SimpleType | NodeKind::Name | NodeKind::Other | NodeKind::TwoOperand)
    })?;
    let constant = tree.owner(node)?;
    match tree.kind(node) {
        NodeKind::Other => Some(Finding::new(format!(
            "{} is not evaluated: constants hold integers, logicals, binaries, strings and items.",
            tree.name(node)
        ))),
        NodeKind::TwoOperand => Some(Finding::new("`/` is not evaluated; DIV divides integers.".to_string())),
        _ if tree.rows[node].role == Role::InExpression => {
            let used = tree.declared(node, tree.text(node))?;
            let reason = declared_reason(tree, base(tree, used))?;
            Some(Finding::with(
                format!("The constant {} (line {}) is {reason}.", tree.name(used), tree.line(used)),
                vec![tree.span(used)],
            ))
        }
        _ => {
            let reason = declared_reason(tree, node)?;
            Some(Finding::new(format!("The constant {} is {reason}.", tree.name(constant))))
        }
    }
}

/// That a type is not evaluated, and by way of what.
fn declared_reason(tree: &Tree, base: Node) -> Option<String> {
    let end = underlying(tree, base, &mut Found::new()).err()?;
    let what = match tree.declared(end, tree.text(end)) {
        Some(declared) if tree.kind(end) == NodeKind::Name && tree.kind(declared) == NodeKind::Entity => "an entity",
        Some(_) if tree.kind(end) == NodeKind::Name => "a select",
        _ => "a type",
    };
    let through = if end == base { String::new() } else { format!(" and so {}", tree.name(end)) };
    Some(format!("declared as {}{through}, {what} that is not evaluated", tree.name(base)))
}

pub fn misfit(tree: &Tree, token: usize) -> Option<Finding> {
    let operators = [NodeKind::Unary, NodeKind::TwoOperand, NodeKind::Interval, NodeKind::Constant];
    let fault = tree.named(token, |row| operators.contains(&row.kind))?;
    let constant = tree.owner(fault)?;
    let mut typing = Typing { tree, kinds: Vec::new(), found: Found::new() };
    for node in tree.below(constant).skip(1).take_while(|&node| node < fault) {
        let kind = typing.result(node).ok()?;
        typing.kinds.extend(kind);
    }
    if fault == constant {
        return typing.declared_misfit(constant);
    }
    typing.result(fault).err().flatten().map(Finding::new)
}

/// What does not fit, in a sentence; none where a node has no kind for another reason.
type Misfit = Option<String>;

/// The nodes of an expression are typed in their order.
struct Typing<'t, 'a> {
    tree: &'t Tree<'a>,
    /// Of the nodes that no node before has for its operand.
    kinds: Vec<Kind>,
    found: Found,
}

impl Typing<'_, '_> {
    fn pop(&mut self) -> Kind {
        self.kinds.pop().unwrap_or(Kind::Undetermined)
    }

    /// The kind of a node, whose operands' kinds are the last ones and are taken; or why there is none. The operator of an interval has
    /// no kind.
    fn result(&mut self, node: Node) -> Result<Option<Kind>, Misfit> {
        let tree = self.tree;
        let kind = match tree.kind(node) {
            NodeKind::Integer => Kind::Integer,
            NodeKind::Binary => Kind::Binary,
            NodeKind::Logical => Kind::Logical,
            NodeKind::Indeterminate => Kind::Undetermined,
            NodeKind::Other if tree.is_string(node) => Kind::String,
            NodeKind::Name => self.name(node).ok_or(None)?,
            NodeKind::QualifiedItem => {
                let declared = tree.declared(node, tree.token_text(tree.rows[node].token.saturating_sub(2)));
                Kind::Item(declared.ok_or(None)?)
            }
            NodeKind::Unary => of_one(tree, node, self.pop())?,
            NodeKind::TwoOperand => {
                let right = self.pop();
                of_two(tree, node, self.pop(), right)?
            }
            NodeKind::Interval => {
                let (high, item) = (self.pop(), self.pop());
                of_interval(tree, self.pop(), item, high)?
            }
            NodeKind::IntervalOperator => return Ok(None),
            _ => return Err(None),
        };
        Ok(Some(kind))
    }

    /// The kind of a constant or an item.
    fn name(&mut self, node: Node) -> Option<Kind> {
        let tree = self.tree;
        match tree.declared(node, tree.text(node)) {
            Some(constant) => underlying(tree, base(tree, constant), &mut self.found).ok(),
            None => tree.items(node, tree.text(node)).first().map(|&item| Kind::Item(tree.type_of_item(item))),
        }
    }

    /// That the last kind, of all of a constant's expression, is not the declared one.
    fn declared_misfit(&mut self, constant: Node) -> Option<Finding> {
        let (tree, kind) = (self.tree, self.kinds.pop()?);
        let base = base(tree, constant);
        let declared = underlying(tree, base, &mut self.found).ok()?;
        let renamed = match declared {
            Kind::Item(node) if tree.text(node).eq_ignore_ascii_case(tree.text(base)) => String::new(),
            _ if tree.kind(base) == NodeKind::SimpleType => String::new(),
            _ => format!(", {}", declared.described(tree)),
        };
        let sentence = format!(
            "The constant {} is declared as {}{renamed}, and its expression is {}.",
            tree.name(constant),
            tree.name(base),
            kind.described(tree),
        );
        (!declared.agrees(kind)).then(|| Finding::with(sentence, vec![tree.span(base)]))
    }
}

fn of_one(tree: &Tree, node: Node, operand: Kind) -> Result<Kind, Misfit> {
    let taken = if tree.text(node).eq_ignore_ascii_case(b"NOT") { Kind::Logical } else { Kind::Integer };
    if taken.agrees(operand) {
        return Ok(taken);
    }
    let (takes, operand) = (taken.described(tree), operand.described(tree));
    Err(Some(format!("{} takes {takes}, and its operand is {operand}.", tree.name(node))))
}

/// What `+` adds or joins (K7).
const SUMMABLE: [Kind; 3] = [Kind::Integer, Kind::Binary, Kind::String];

fn of_two(tree: &Tree, node: Node, left: Kind, right: Kind) -> Result<Kind, Misfit> {
    let both = if left == Kind::Undetermined { right } else { left };
    let operator = tree.text(node).to_ascii_uppercase();
    let (takes, fits, gives) = match operator.as_slice() {
        b"AND" | b"OR" | b"XOR" => ("two logicals", both.agrees(Kind::Logical), Kind::Logical),
        b"+" => ("two integers, two binaries or two strings", SUMMABLE.iter().any(|&kind| both.agrees(kind)), both),
        b"-" | b"*" | b"DIV" | b"MOD" | b"**" => ("two integers", both.agrees(Kind::Integer), Kind::Integer),
        b"/" => return Err(None),
        _ => ("two operands of one kind", true, Kind::Logical),
    };
    if fits && left.agrees(right) {
        return Ok(gives);
    }
    let (left, right) = (left.described(tree), right.described(tree));
    Err(Some(format!("{} takes {takes}, and its operands are {left} and {right}.", tree.name(node))))
}

fn of_interval(tree: &Tree, low: Kind, item: Kind, high: Kind) -> Result<Kind, Misfit> {
    if low.agrees(item) && item.agrees(high) {
        return Ok(Kind::Logical);
    }
    let [low, item, high] = [low, item, high].map(|kind| kind.described(tree));
    Err(Some(format!("An interval takes three of one kind, and these are {low}, {item} and {high}.")))
}
