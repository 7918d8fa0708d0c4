//! The grammar (G3 to G21): the rows of a tree, or the token at which there is none, with what could stand there.

use super::tokens::Token;
use super::words::{is_reserved, SIMPLE_TYPES};
use crate::codes::{NodeKind, TokenKind};

/// What a reader looks for.
#[derive(Clone, Copy, Debug, PartialEq, Eq)]
pub enum Wanted {
    /// An identifier.
    Name,
    /// A reserved word or a symbol with a place of its own.
    Exact(&'static str),
    /// One that may stand for, or before, an operand.
    Operand(&'static str),
    /// A literal, as an operand.
    Literal(TokenKind),
    Operator(&'static str),
    SimpleType(&'static str),
    /// The end of the file.
    End,
}

/// Which rule left a name, and whether a rule of a WHERE has a label (G35).
#[derive(Clone, Copy, Debug, PartialEq, Eq)]
pub enum Role {
    None,
    InExpression,
    TypeName,
    Renamed,
    Selected,
    Supertype,
    Labelled,
}

/// A row of the tree, in post-order (G31).
#[derive(Clone, Copy, Debug, PartialEq, Eq)]
pub struct Row {
    pub kind: NodeKind,
    pub token: usize,
    pub size: usize,
    pub role: Role,
}

/// Where the tokens begin no file: the token's number (that of all tokens, if they end too early), and what could stand there.
#[derive(Clone, Debug, PartialEq, Eq)]
pub struct Stuck {
    pub token: usize,
    pub wanted: Vec<Wanted>,
}

/// A step fails where the reader then stands.
pub(super) type Step<T = ()> = Option<T>;

pub fn read(src: &[u8], tokens: &[Token]) -> Result<Vec<Row>, Stuck> {
    let mut reader = Reader { src, tokens, at: 0, open: 0, rows: Vec::new(), wanted: Vec::new(), label_end: None };
    match reader.file() {
        Some(()) => Ok(reader.rows),
        None => Err(reader.stuck()),
    }
}

pub(super) struct Reader<'a> {
    src: &'a [u8],
    tokens: &'a [Token],
    pub(super) at: usize,
    /// How many parentheses and intervals are open.
    pub(super) open: usize,
    pub(super) rows: Vec<Row>,
    /// What was looked for at this token, in vain.
    pub(super) wanted: Vec<Wanted>,
    /// Where the colon of a label could stand.
    label_end: Option<usize>,
}

impl Reader<'_> {
    fn stuck(mut self) -> Stuck {
        if self.label_end == Some(self.at) {
            self.wanted.push(Wanted::Exact(":"));
        }
        Stuck { token: self.at, wanted: self.wanted }
    }

    fn matches(&self, at: usize, wanted: Wanted) -> bool {
        let Some(token) = self.tokens.get(at) else { return wanted == Wanted::End };
        let text = token.text(self.src);
        match wanted {
            Wanted::Name => token.kind == TokenKind::Word && !is_reserved(text),
            Wanted::Literal(kind) => token.kind == kind,
            Wanted::End => false,
            Wanted::Exact(word) | Wanted::Operand(word) | Wanted::Operator(word) | Wanted::SimpleType(word) => {
                text.eq_ignore_ascii_case(word.as_bytes())
            }
        }
    }

    /// Whether this stands here; if not, it could.
    pub(super) fn sees(&mut self, wanted: Wanted) -> bool {
        let found = self.matches(self.at, wanted);
        if !found && !self.wanted.contains(&wanted) {
            self.wanted.push(wanted);
        }
        found
    }

    /// Whether one of these stands here; if not, each could.
    pub(super) fn sees_one(&mut self, words: &[&'static str], wanted: fn(&'static str) -> Wanted) -> bool {
        words.iter().any(|word| self.sees(wanted(word)))
    }

    pub(super) fn take(&mut self) -> usize {
        self.wanted.clear();
        self.at += 1;
        self.at - 1
    }

    pub(super) fn take_if(&mut self, wanted: Wanted) -> Option<usize> {
        self.sees(wanted).then(|| self.take())
    }

    pub(super) fn expect(&mut self, word: &'static str) -> Step<usize> {
        self.take_if(Wanted::Exact(word))
    }

    pub(super) fn name(&mut self) -> Step<usize> {
        self.take_if(Wanted::Name)
    }

    pub(super) fn leaf(&mut self, kind: NodeKind, token: usize, role: Role) {
        self.rows.push(Row { kind, token, size: 1, role });
    }

    /// A row over all rows from `first` on.
    pub(super) fn row(&mut self, kind: NodeKind, token: usize, first: usize, role: Role) {
        self.rows.push(Row { kind, token, size: self.rows.len() - first + 1, role });
    }

    fn file(&mut self) -> Step {
        self.schema()?;
        while self.sees(Wanted::Exact("SCHEMA")) {
            self.schema()?;
        }
        self.sees(Wanted::End).then_some(())?;
        self.row(NodeKind::File, 0, 0, Role::None);
        Some(())
    }

    fn schema(&mut self) -> Step {
        let first = self.rows.len();
        self.expect("SCHEMA")?;
        let name = self.name()?;
        self.expect(";")?;
        if self.expect("CONSTANT").is_some() {
            self.initialised(NodeKind::Constant)?;
            self.expect("END_CONSTANT")?;
            self.expect(";")?;
        }
        loop {
            if self.expect("TYPE").is_some() {
                self.type_declaration()?;
            } else if self.expect("ENTITY").is_some() {
                self.entity()?;
            } else {
                break;
            }
        }
        self.expect("END_SCHEMA")?;
        self.expect(";")?;
        self.row(NodeKind::Schema, name, first, Role::None);
        Some(())
    }

    /// One or more constants, or derived attributes.
    fn initialised(&mut self, kind: NodeKind) -> Step {
        let mut name = self.name()?;
        loop {
            let first = self.rows.len();
            self.expect(":")?;
            self.base(Role::TypeName)?;
            self.expect(":=")?;
            self.expression()?;
            self.expect(";")?;
            self.row(kind, name, first, Role::None);
            match self.name() {
                Some(next) => name = next,
                None => return Some(()),
            }
        }
    }

    /// A simple type, or the name of one.
    fn base(&mut self, role: Role) -> Step {
        if self.sees_one(&SIMPLE_TYPES, Wanted::SimpleType) {
            let token = self.take();
            self.leaf(NodeKind::SimpleType, token, Role::None);
        } else {
            let token = self.name()?;
            self.leaf(NodeKind::Name, token, role);
        }
        Some(())
    }

    fn type_declaration(&mut self) -> Step {
        let first = self.rows.len();
        let name = self.name()?;
        self.expect("=")?;
        self.underlying()?;
        self.expect(";")?;
        self.rules("END_TYPE")?;
        self.expect(";")?;
        self.row(NodeKind::Type, name, first, Role::None);
        Some(())
    }

    fn underlying(&mut self) -> Step {
        let first = self.rows.len();
        if let Some(token) = self.expect("ENUMERATION") {
            self.expect("OF")?;
            self.list(NodeKind::Item, Role::None)?;
            self.row(NodeKind::Enumeration, token, first, Role::None);
            Some(())
        } else if let Some(token) = self.expect("SELECT") {
            self.list(NodeKind::Name, Role::Selected)?;
            self.row(NodeKind::Select, token, first, Role::None);
            Some(())
        } else {
            self.base(Role::Renamed)
        }
    }

    /// Names in parentheses.
    fn list(&mut self, kind: NodeKind, role: Role) -> Step {
        self.expect("(")?;
        self.names(kind, role)?;
        self.expect(")").map(|_| ())
    }

    /// Names with commas between them; the first is given.
    fn names(&mut self, kind: NodeKind, role: Role) -> Step<usize> {
        let first = self.name()?;
        self.leaf(kind, first, role);
        while self.expect(",").is_some() {
            let token = self.name()?;
            self.leaf(kind, token, role);
        }
        Some(first)
    }

    /// The rules of a WHERE, if there is one, and the word behind them.
    fn rules(&mut self, end: &'static str) -> Step {
        if self.expect("WHERE").is_some() {
            self.rule()?;
            while !self.sees(Wanted::Exact(end)) {
                self.rule()?;
            }
        }
        self.expect(end).map(|_| ())
    }

    fn rule(&mut self) -> Step {
        let (first, token) = (self.rows.len(), self.at);
        let named = self.matches(token, Wanted::Name);
        let labelled = named && self.matches(token + 1, Wanted::Exact(":"));
        if labelled {
            self.take();
            self.take();
        } else if named {
            self.label_end = Some(token + 1);
        }
        self.expression()?;
        self.expect(";")?;
        self.row(NodeKind::Rule, token, first, if labelled { Role::Labelled } else { Role::None });
        Some(())
    }

    fn entity(&mut self) -> Step {
        let first = self.rows.len();
        let name = self.name()?;
        if self.expect("SUBTYPE").is_some() {
            self.expect("OF")?;
            self.list(NodeKind::Name, Role::Supertype)?;
        }
        self.expect(";")?;
        while self.sees(Wanted::Name) {
            self.attributes()?;
        }
        if self.expect("DERIVE").is_some() {
            self.initialised(NodeKind::DerivedAttribute)?;
        }
        self.rules("END_ENTITY")?;
        self.expect(";")?;
        self.row(NodeKind::Entity, name, first, Role::None);
        Some(())
    }

    fn attributes(&mut self) -> Step {
        let first = self.rows.len();
        let token = self.names(NodeKind::AttributeName, Role::None)?;
        self.expect(":")?;
        let optional = self.expect("OPTIONAL").is_some();
        self.base(Role::TypeName)?;
        self.expect(";")?;
        let kind = if optional { NodeKind::OptionalGroup } else { NodeKind::AttributeGroup };
        self.row(kind, token, first, Role::None);
        Some(())
    }
}
