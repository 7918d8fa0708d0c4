//! Faults of names: replies 9 to 12.

use super::reader::{Role, Row};
use super::spelling::is_near;
use super::tree::{is_declaration, sort, Node, Tree};
use super::Finding;
use crate::codes::NodeKind;
use crate::text::{one, quoted};

pub fn repeated(tree: &Tree, token: usize) -> Option<Finding> {
    let later = tree.named(token, |row| declares(row) || row.role == Role::Supertype)?;
    let alike = |&node: &Node| {
        tree.text(node).eq_ignore_ascii_case(tree.text(later)) && scope(tree, node) == scope(tree, later)
    };
    let earlier = (0..later).find(alike)?;
    let (name, line) = (tree.name(later), tree.line(earlier));
    let owner = || tree.owner(later).map_or(String::new(), |owner| tree.name(owner));
    let sentence = match tree.kind(later) {
        NodeKind::Schema => format!("There is a schema {name} already, on line {line}."),
        NodeKind::Name => format!("{name} stands among the supertypes of {} already, on line {line}.", owner()),
        NodeKind::Item => format!("The enumeration {} has an item {name} already, on line {line}.", owner()),
        kind if is_declaration(kind) => {
            let (schema, before) = (tree.name(tree.schema(later)), one(sort(tree.kind(earlier))));
            format!("{name} is declared in schema {schema} already, as {before} on line {line}.")
        }
        _ => format!("{name} is declared in {} already, on line {line}.", owner()),
    };
    Some(Finding::with(sentence, vec![tree.span(earlier)]))
}

fn declares(row: &Row) -> bool {
    is_declaration(row.kind)
        || matches!(row.kind, NodeKind::Schema | NodeKind::Item | NodeKind::AttributeName | NodeKind::DerivedAttribute)
        || row.role == Role::Labelled
}

/// Where a name is declared (N2), by the node that has the names.
#[derive(PartialEq, Eq)]
enum Scope {
    File,
    Schema(Node),
    Enumeration(Node),
    /// Attributes and labels.
    Members(Node),
    Supertypes(Node),
}

fn scope(tree: &Tree, node: Node) -> Option<Scope> {
    match tree.kind(node) {
        NodeKind::Schema => Some(Scope::File),
        kind if is_declaration(kind) => Some(Scope::Schema(tree.schema(node))),
        NodeKind::Item => tree.owner(node).map(Scope::Enumeration),
        _ if tree.is_member(node) => tree.owner(node).map(Scope::Members),
        _ if tree.rows[node].role == Role::Supertype => tree.owner(node).map(Scope::Supertypes),
        _ => None,
    }
}

/// A use of a name.
enum Use {
    /// A name of a type or of a supertype.
    Type(Node),
    /// The type of a qualified item.
    Qualifier(Node),
    /// The item of a qualified item.
    Qualified(Node),
    /// A name in an expression.
    Value(Node),
    /// SELF.
    Itself,
}

/// The use that a token is.
fn use_at(tree: &Tree, token: usize) -> Option<Use> {
    tree.rows.iter().enumerate().find_map(|(node, row)| match row.kind {
        NodeKind::Name if row.token == token && row.role == Role::InExpression => Some(Use::Value(node)),
        NodeKind::Name if row.token == token => Some(Use::Type(node)),
        NodeKind::QualifiedItem if row.token == token => Some(Use::Qualified(node)),
        NodeKind::QualifiedItem if row.token == token + 2 => Some(Use::Qualifier(node)),
        NodeKind::SelfReference if row.token == token => Some(Use::Itself),
        _ => None,
    })
}

/// The type of a qualified item, where it is declared.
fn qualifier(tree: &Tree, item: Node) -> Option<Node> {
    tree.declared(item, tree.token_text(tree.rows[item].token.checked_sub(2)?))
}

/// What a name of a role must mean.
fn needed(role: Role) -> &'static str {
    match role {
        Role::Renamed => "type",
        Role::Supertype => "entity",
        _ => "type or entity",
    }
}

pub fn not_found(tree: &Tree, token: usize) -> Option<Finding> {
    let use_here = use_at(tree, token)?;
    let (node, sentence) = lacking(tree, &use_here, &quoted(tree.token_text(token)))?;
    let text = tree.token_text(token);
    let near = |&other: &Node| is_near(text, tree.text(other)) && could_be_meant(tree, &use_here, other);
    if let Some(other) = (0..tree.rows.len()).find(near) {
        let sentence = format!("{sentence}; {} (line {}) is spelled much like it.", tree.name(other), tree.line(other));
        return Some(Finding::with(sentence, vec![tree.span(other)]));
    }
    let elsewhere = |&other: &Node| {
        (is_declaration(tree.kind(other)) || tree.kind(other) == NodeKind::Item)
            && tree.schema(other) != tree.schema(node)
            && tree.text(other).eq_ignore_ascii_case(text)
    };
    Some(match (0..tree.rows.len()).find(elsewhere) {
        Some(other) => {
            let schema = tree.name(tree.schema(other));
            let sentence =
                format!("{sentence}; the {} of schema {schema} is not seen from here.", tree.described(other));
            Finding::with(sentence, vec![tree.span(other)])
        }
        None => Finding::new(sentence + "."),
    })
}

/// A use whose name is not found, and who lacks what.
fn lacking(tree: &Tree, use_here: &Use, name: &str) -> Option<(Node, String)> {
    let schema = |node: Node| tree.name(tree.schema(node));
    match *use_here {
        Use::Type(node) if tree.declared(node, tree.text(node)).is_none() => {
            let what = needed(tree.rows[node].role);
            Some((node, format!("Schema {} declares no {what} {name}", schema(node))))
        }
        Use::Qualifier(node) if qualifier(tree, node).is_none() => {
            Some((node, format!("Schema {} declares no enumeration {name}", schema(node))))
        }
        Use::Qualified(node) => {
            let found = qualifier(tree, node)?;
            let lacks = tree.items_of(found).all(|item| !tree.text(item).eq_ignore_ascii_case(tree.text(node)));
            let (enumeration, line) = (tree.name(found), tree.line(found));
            lacks.then(|| (node, format!("The enumeration {enumeration} (line {line}) has no item {name}")))
        }
        Use::Value(node)
            if tree.declared(node, tree.text(node)).is_none() && tree.items(node, tree.text(node)).is_empty() =>
        {
            let owner = tree.owner(node)?;
            let attribute = match tree.kind(owner) {
                NodeKind::Entity => format!(", and entity {} no attribute", tree.name(owner)),
                _ => String::new(),
            };
            Some((node, format!("Schema {} declares no constant and no item {name}{attribute}", schema(node))))
        }
        _ => None,
    }
}

/// Whether a declaration would be found, and be of the right sort, by its own name in place of the one that is there. A constant in its
/// own expression would be a cycle.
fn could_be_meant(tree: &Tree, use_here: &Use, other: Node) -> bool {
    let kind = tree.kind(other);
    match *use_here {
        Use::Type(node) => {
            let suits = match tree.rows[node].role {
                Role::Renamed => kind == NodeKind::Type,
                Role::Supertype => kind == NodeKind::Entity,
                _ => matches!(kind, NodeKind::Type | NodeKind::Entity),
            };
            suits && tree.schema(other) == tree.schema(node)
        }
        Use::Qualifier(node) => tree.schema(other) == tree.schema(node) && tree.items_of(other).next().is_some(),
        Use::Qualified(node) => {
            kind == NodeKind::Item && tree.owner(other).is_some_and(|owner| Some(owner) == qualifier(tree, node))
        }
        Use::Value(node) => {
            let member = tree.is_member(other) && tree.rows[other].role != Role::Labelled;
            match kind {
                NodeKind::Constant | NodeKind::Item => {
                    tree.schema(other) == tree.schema(node) && tree.owner(node) != Some(other)
                }
                _ => member && tree.owner(other) == tree.owner(node),
            }
        }
        Use::Itself => false,
    }
}

pub fn wrong_sort(tree: &Tree, token: usize) -> Option<Finding> {
    let about = |found: Node, sentence: String| Some(Finding::with(sentence, vec![tree.span(found)]));
    match use_at(tree, token)? {
        Use::Itself => Some(Finding::new("SELF means nothing in a constant.".to_string())),
        Use::Type(node) => {
            let found = tree.declared(node, tree.text(node))?;
            let what = one(needed(tree.rows[node].role));
            about(found, format!("The {} stands where {what} must be named.", tree.described(found)))
        }
        Use::Qualifier(node) => {
            let found = qualifier(tree, node)?;
            about(
                found,
                format!("The {} is not itself declared as an enumeration, so it has no items.", tree.described(found)),
            )
        }
        Use::Value(node) => {
            let owner = tree.owner(node)?;
            let found = tree.own(owner, tree.text(node)).or_else(|| tree.declared(node, tree.text(node)))?;
            about(found, format!("The {} has no value and cannot stand in an expression.", tree.described(found)))
        }
        Use::Qualified(_) => None,
    }
}

pub fn ambiguous(tree: &Tree, token: usize) -> Option<Finding> {
    if let Some(own) = (0..tree.rows.len()).find(|&node| tree.rows[node].token == token && tree.is_member(node)) {
        let entity = tree.owner(own)?;
        let above = *tree.inherited(entity, tree.text(own)).first()?;
        let from = tree.owner(above)?;
        let sentence = format!(
            "The {} {} has the name of an attribute that {} inherits from {} (line {}).",
            sort(tree.kind(own)),
            tree.name(own),
            tree.name(entity),
            tree.name(from),
            tree.line(above),
        );
        return Some(Finding::with(sentence, vec![tree.span(above)]));
    }
    let Use::Value(node) = use_at(tree, token)? else { return None };
    let name = tree.name(node);
    let inherited = tree.inherited(tree.owner(node)?, tree.text(node));
    let (what, meanings) = if inherited.is_empty() {
        ("an item", tree.items(node, tree.text(node)))
    } else {
        ("an attribute inherited", inherited.as_slice())
    };
    let &[one, other, ..] = meanings else { return None };
    let of = |meaning: Node| {
        let owner = tree.owner(meaning).unwrap_or(meaning);
        format!("{} (line {})", tree.name(owner), tree.line(meaning))
    };
    let link = if inherited.is_empty() { "of" } else { "from" };
    let sentence = format!("{name} has two meanings: it is {what} {link} {} and {link} {}.", of(one), of(other));
    Some(Finding::with(sentence, vec![tree.span(one), tree.span(other)]))
}
