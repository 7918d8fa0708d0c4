//! Schemas and their declarations as tokens, in any order, with the scopes of their expressions.

use super::expressions::{Scope, Writer};
use super::model::{self, Constant, Entity, Kind, Schema, Type, Under};
use super::source::Source;
use std::collections::{BTreeMap, BTreeSet};

type Named<'a> = (Option<Kind>, &'a str);

/// The tokens of a file of about `size` bytes.
pub fn file(source: &mut Source, size: usize) -> Vec<String> {
    let mut left = if source.rng.one_in(3) { source.rng.between(1, 4) } else { 1 };
    let (mut taken, mut names) = (BTreeSet::new(), Vec::new());
    let mut writer = Writer::new(source, size);
    while left > 0 {
        let name = writer.source.declare(&mut taken, &names);
        let share = size.saturating_sub(writer.written) / left;
        let schema = model::schema(writer.source, share);
        write_schema(&mut writer, &name, &schema);
        names.push(name);
        left -= 1;
    }
    writer.out
}

fn write_schema(writer: &mut Writer, name: &str, schema: &Schema) {
    writer.puts(&["SCHEMA", name, ";"]);
    let (items, ambiguous) = bare_items(schema);
    if !schema.constants.is_empty() {
        writer.put("CONSTANT");
        constants(writer, schema, &items, &ambiguous);
        writer.puts(&["END_CONSTANT", ";"]);
    }
    let mut outer: Vec<Named> = schema.constants.iter().map(|of| (Some(of.kind), of.name.as_str())).collect();
    outer.extend(&items);
    let outer = Scope { schema, names: outer, labels: Vec::new(), ambiguous, typed: false };
    let mut parts = Vec::new();
    for of in &schema.types {
        parts.push(apart(writer, |writer| write_type(writer, &outer, of)));
    }
    for of in &schema.entities {
        parts.push(apart(writer, |writer| write_entity(writer, &outer, of)));
    }
    mix(writer, parts);
    writer.puts(&["END_SCHEMA", ";"]);
}

/// The item names that no declaration of the schema hides: those of one enumeration, and those of several.
fn bare_items(schema: &Schema) -> (Vec<Named<'_>>, Vec<&str>) {
    let mut found: BTreeMap<&str, Vec<usize>> = BTreeMap::new();
    for &of in &schema.enumerations {
        schema.items(of).iter().for_each(|item| found.entry(item).or_default().push(of));
    }
    schema.constants.iter().for_each(|of| drop(found.remove(of.name.as_str())));
    schema.types.iter().for_each(|of| drop(found.remove(of.name.as_str())));
    schema.entities.iter().for_each(|of| drop(found.remove(of.name.as_str())));
    let (one, several): (Vec<_>, Vec<_>) = found.into_iter().partition(|(_, of)| of.len() == 1);
    let named = one.into_iter().map(|(name, of)| (Some(Kind::Item(of[0])), name)).collect();
    (named, several.into_iter().map(|(name, _)| name).collect())
}

/// The tokens that `write` puts, taken out of the text again.
fn apart(writer: &mut Writer, write: impl FnOnce(&mut Writer)) -> Vec<String> {
    let before = std::mem::take(&mut writer.out);
    write(writer);
    std::mem::replace(&mut writer.out, before)
}

/// Puts the parts in any order.
fn mix(writer: &mut Writer, mut parts: Vec<Vec<String>>) {
    writer.source.rng.shuffle(&mut parts);
    parts.into_iter().for_each(|part| writer.out.extend(part));
}

/// Each constant uses only those before it, but the text mixes them.
fn constants(writer: &mut Writer, schema: &Schema, items: &[Named], ambiguous: &[&str]) {
    let mut scope =
        Scope { schema, names: items.to_vec(), labels: Vec::new(), ambiguous: ambiguous.to_vec(), typed: true };
    let mut parts = Vec::new();
    for of in &schema.constants {
        let Constant { name, base, kind } = of;
        parts.push(apart(writer, |writer| defined(writer, &scope, (name, base), *kind)));
        scope.names.push((Some(*kind), name));
    }
    mix(writer, parts);
}

fn defined(writer: &mut Writer, scope: &Scope, (name, base): (&str, &str), kind: Kind) {
    writer.puts(&[name, ":", base, ":="]);
    writer.whole(scope, kind);
    writer.put(";");
}

fn write_type(writer: &mut Writer, outer: &Scope, of: &Type) {
    writer.puts(&["TYPE", &of.name, "="]);
    match &of.under {
        Under::Base(base) => writer.put(base),
        Under::Enumeration(items) => {
            writer.puts(&["ENUMERATION", "OF"]);
            list(writer, items);
        }
        Under::Select(names) => {
            writer.put("SELECT");
            list(writer, names);
        }
    }
    writer.put(";");
    let labels = of.rules.iter().flatten().map(String::as_str).collect();
    rules(writer, &inner(outer, Vec::new(), labels, Vec::new()), &of.rules);
    writer.puts(&["END_TYPE", ";"]);
}

fn list(writer: &mut Writer, names: &[String]) {
    for (i, name) in names.iter().enumerate() {
        writer.puts(&[if i == 0 { "(" } else { "," }, name]);
    }
    writer.put(")");
}

/// A scope of the names given, and of the outer ones that they do not hide.
fn inner<'a>(
    outer: &Scope<'a>,
    mut names: Vec<Named<'a>>,
    labels: Vec<&'a str>,
    mut ambiguous: Vec<&'a str>,
) -> Scope<'a> {
    let own = names.iter().map(|(_, name)| name);
    let hidden: BTreeSet<&str> = own.chain(&labels).chain(&ambiguous).copied().collect();
    names.extend(outer.names.iter().filter(|(_, name)| !hidden.contains(name)));
    ambiguous.extend(&outer.ambiguous);
    Scope { schema: outer.schema, names, labels, ambiguous, typed: false }
}

fn rules(writer: &mut Writer, scope: &Scope, labels: &[Option<String>]) {
    if !labels.is_empty() {
        writer.put("WHERE");
    }
    for label in labels {
        if let Some(label) = label {
            writer.puts(&[label, ":"]);
        }
        writer.whole(scope, Kind::Logical);
        writer.put(";");
    }
}

fn write_entity(writer: &mut Writer, outer: &Scope, of: &Entity) {
    writer.puts(&["ENTITY", &of.name]);
    if !of.supertypes.is_empty() {
        writer.puts(&["SUBTYPE", "OF"]);
        list(writer, &of.supertypes);
    }
    writer.put(";");
    for group in &of.groups {
        for (i, name) in group.names.iter().enumerate() {
            writer.puts(if i == 0 { &[""; 0] } else { &[","] });
            writer.put(name);
        }
        writer.puts(if group.optional { &[":", "OPTIONAL"] } else { &[":"] });
        writer.puts(&[&group.base, ";"]);
    }
    let scope = entity_scope(outer, of);
    if !of.derived.is_empty() {
        writer.put("DERIVE");
    }
    for (name, base) in &of.derived {
        defined(writer, &scope, (name, base), Kind::Integer);
    }
    rules(writer, &scope, &of.rules);
    writer.puts(&["END_ENTITY", ";"]);
}

/// The entity's attributes, own and inherited, that have one meaning; then the schema's names.
fn entity_scope<'a>(outer: &Scope<'a>, of: &'a Entity) -> Scope<'a> {
    let mut meanings: BTreeMap<&str, usize> = BTreeMap::new();
    of.inherited.iter().for_each(|(_, name)| *meanings.entry(name).or_default() += 1);
    of.attributes().for_each(|name| *meanings.entry(name).or_default() += 1);
    let (usable, several): (Vec<_>, Vec<_>) = meanings.into_iter().partition(|(_, count)| *count == 1);
    let labels = of.rules.iter().flatten().map(String::as_str).collect();
    let usable = usable.into_iter().map(|(name, _)| (None, name)).collect();
    inner(outer, usable, labels, several.into_iter().map(|(name, _)| name).collect())
}
