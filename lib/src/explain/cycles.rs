//! Declarations that depend on themselves: reply 13.

use super::reader::Role;
use super::tree::{is_declaration, sort, Node, Tree};
use super::Finding;
use crate::codes::NodeKind;
use std::collections::{HashMap, VecDeque};

/// So many declarations of a cycle are named.
const SHOWN: usize = 5;

pub fn cycle(tree: &Tree, token: usize) -> Option<Finding> {
    let first = tree.named(token, |row| is_declaration(row.kind))?;
    let cycle = shortest_cycle(tree, first)?;
    let others = &cycle[1..];
    let names: Vec<String> = others.iter().take(SHOWN).map(|&node| tree.name(node)).collect();
    let more = others.len().saturating_sub(SHOWN);
    let way = match (names.is_empty(), more) {
        (true, _) => String::new(),
        (false, 0) => format!(", by way of {}", names.join(", ")),
        (false, more) => format!(", by way of {} and {more} more", names.join(", ")),
    };
    let sentence = format!("The {} {} depends on itself{way}.", sort(tree.kind(first)), tree.name(first));
    Some(Finding::with(sentence, cycle.iter().map(|&node| tree.span(node)).collect()))
}

/// The declarations of a shortest way from one back to itself, with it at the front.
fn shortest_cycle(tree: &Tree, first: Node) -> Option<Vec<Node>> {
    let mut before: HashMap<Node, Node> = HashMap::new();
    let mut queue = VecDeque::from([first]);
    while let Some(node) = queue.pop_front() {
        for target in targets(tree, node) {
            if target == first {
                let mut way = vec![node];
                while let Some(&earlier) = before.get(way.last()?) {
                    way.push(earlier);
                }
                way.reverse();
                return Some(way);
            }
            before.entry(target).or_insert_with(|| {
                queue.push_back(target);
                node
            });
        }
    }
    None
}

/// What a declaration depends on (N7, N17).
fn targets<'t>(tree: &'t Tree, declaration: Node) -> impl Iterator<Item = Node> + 't {
    let constant = tree.kind(declaration) == NodeKind::Constant;
    let names = tree.below(declaration).filter(move |&node| match tree.rows[node].role {
        Role::InExpression => constant,
        Role::Renamed | Role::Selected | Role::Supertype => true,
        _ => false,
    });
    let meant = names.filter_map(|node| tree.declared(node, tree.text(node)));
    meant.filter(move |&node| (tree.kind(node) == NodeKind::Constant) == constant)
}
