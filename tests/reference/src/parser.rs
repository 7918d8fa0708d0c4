//! Terminals to the tree, by recursive descent: replies 4 and 5.
//!
//! Each rule is decided by the next terminal (by the next two after an identifier), so the token refused is the first
//! through which no text of the grammar begins.

use crate::terminals::Terminal::{self, *};

/// The kinds of nodes.
pub mod kind {
    pub const INTEGER: u8 = 1;
    pub const BINARY: u8 = 2;
    pub const LOGICAL: u8 = 3;
    pub const INDETERMINATE: u8 = 4;
    /// A real, a string, PI or CONST_E.
    pub const REAL_OR_STRING: u8 = 5;
    pub const NAME: u8 = 6;
    pub const QUALIFIED_ITEM: u8 = 7;
    pub const SELF: u8 = 8;
    pub const UNARY: u8 = 9;
    pub const BINARY_OPERATOR: u8 = 10;
    pub const INTERVAL: u8 = 11;
    pub const INTERVAL_OPERATOR: u8 = 12;
    pub const SIMPLE_TYPE: u8 = 13;
    pub const ITEM: u8 = 14;
    pub const ENUMERATION: u8 = 15;
    pub const SELECT: u8 = 16;
    pub const CONSTANT: u8 = 17;
    pub const TYPE: u8 = 18;
    pub const ATTRIBUTE: u8 = 19;
    pub const ATTRIBUTE_GROUP: u8 = 20;
    pub const OPTIONAL_GROUP: u8 = 21;
    pub const DERIVED: u8 = 22;
    pub const RULE: u8 = 23;
    pub const ENTITY: u8 = 24;
    pub const SCHEMA: u8 = 25;
    pub const FILE: u8 = 26;
}

/// What a name or a rule is, by the rule of the grammar that left it.
pub mod role {
    pub const NONE: u8 = 0;
    pub const EXPRESSION_NAME: u8 = 1;
    pub const TYPE_NAME: u8 = 2;
    pub const RENAMED_TYPE: u8 = 3;
    pub const SELECT_NAME: u8 = 4;
    pub const SUPERTYPE: u8 = 5;
    pub const LABELLED: u8 = 1;
    pub const UNLABELLED: u8 = 2;
}

/// The most parentheses and intervals open at once.
const MAX_OPEN: usize = 64;

/// A node before its name is bound. Children stand before parents, from left to right.
#[derive(Clone, Copy, Debug, Default, PartialEq, Eq)]
pub struct SyntaxRow {
    pub kind: u8,
    pub token: u32,
    pub size: u32,
    pub role: u8,
}

/// Where the parser stopped: reply 4 or 5, and the number of the token (that of all tokens if the input stops early).
#[derive(Clone, Copy, Debug, PartialEq, Eq)]
pub struct Stop {
    pub reply: u32,
    pub token: u32,
}

type Step<Value = ()> = Result<Value, Stop>;

/// The nodes of a whole file.
pub fn read(terminals: &[Terminal]) -> Result<Vec<SyntaxRow>, Stop> {
    let nodes = Vec::with_capacity(terminals.len());
    let mut parser = Parser { terminals, at: 0, open: 0, nodes };
    parser.file()?;
    Ok(parser.nodes)
}

struct Parser<'a> {
    terminals: &'a [Terminal],
    at: usize,
    open: usize,
    nodes: Vec<SyntaxRow>,
}

impl Parser<'_> {
    fn peek(&self) -> Terminal {
        self.after(0)
    }

    fn after(&self, ahead: usize) -> Terminal {
        self.terminals.get(self.at + ahead).copied().unwrap_or(End)
    }

    /// Takes the next token, whatever it is, and gives its number.
    fn take(&mut self) -> u32 {
        let token = self.at as u32;
        self.at += 1;
        token
    }

    /// Takes the next token if it is of this terminal.
    fn take_if(&mut self, terminal: Terminal) -> bool {
        let found = self.peek() == terminal;
        self.at += usize::from(found);
        found
    }

    fn expect(&mut self, terminal: Terminal) -> Step<u32> {
        if self.peek() == terminal {
            Ok(self.take())
        } else {
            self.stop(4)
        }
    }

    fn stop<Value>(&self, reply: u32) -> Step<Value> {
        Err(Stop { reply, token: self.at as u32 })
    }

    fn leaf(&mut self, kind: u8, token: u32, role: u8) {
        self.nodes.push(SyntaxRow { kind, token, size: 1, role });
    }

    /// Takes the next token as a leaf.
    fn take_leaf(&mut self, kind: u8, role: u8) {
        let token = self.take();
        self.leaf(kind, token, role);
    }

    /// A node over all nodes from `first` on.
    fn node(&mut self, kind: u8, token: u32, first: usize, role: u8) {
        let size = (self.nodes.len() - first + 1) as u32;
        self.nodes.push(SyntaxRow { kind, token, size, role });
    }

    fn file(&mut self) -> Step {
        self.schema()?;
        while self.peek() != End {
            self.schema()?;
        }
        self.node(kind::FILE, 0, 0, role::NONE);
        Ok(())
    }

    fn schema(&mut self) -> Step {
        let first = self.nodes.len();
        self.expect(Schema)?;
        let name = self.expect(Identifier)?;
        self.expect(Semicolon)?;
        if self.take_if(Constant) {
            self.constants()?;
        }
        loop {
            match self.peek() {
                Type => self.type_declaration()?,
                Entity => self.entity()?,
                _ => break,
            }
        }
        self.expect(EndSchema)?;
        self.expect(Semicolon)?;
        self.node(kind::SCHEMA, name, first, role::NONE);
        Ok(())
    }

    fn constants(&mut self) -> Step {
        self.initialised(kind::CONSTANT)?;
        while self.peek() == Identifier {
            self.initialised(kind::CONSTANT)?;
        }
        self.expect(EndConstant)?;
        self.expect(Semicolon)?;
        Ok(())
    }

    /// A constant or a derived attribute.
    fn initialised(&mut self, kind: u8) -> Step {
        let first = self.nodes.len();
        let name = self.expect(Identifier)?;
        self.expect(Colon)?;
        self.base(role::TYPE_NAME)?;
        self.expect(Becomes)?;
        self.expression()?;
        self.expect(Semicolon)?;
        self.node(kind, name, first, role::NONE);
        Ok(())
    }

    /// A simple type or a name of the given role.
    fn base(&mut self, role: u8) -> Step {
        match self.peek() {
            Binary | Boolean | Integer | Logical | Number | Real | String => {
                self.take_leaf(kind::SIMPLE_TYPE, role::NONE);
            }
            Identifier => self.take_leaf(kind::NAME, role),
            _ => return self.stop(4),
        }
        Ok(())
    }

    fn type_declaration(&mut self) -> Step {
        let first = self.nodes.len();
        self.expect(Type)?;
        let name = self.expect(Identifier)?;
        self.expect(Equal)?;
        self.underlying_type()?;
        self.expect(Semicolon)?;
        self.rules(EndType)?;
        self.expect(EndType)?;
        self.expect(Semicolon)?;
        self.node(kind::TYPE, name, first, role::NONE);
        Ok(())
    }

    fn underlying_type(&mut self) -> Step {
        let first = self.nodes.len();
        match self.peek() {
            Enumeration => {
                let token = self.take();
                self.expect(Of)?;
                self.identifiers(kind::ITEM, role::NONE)?;
                self.node(kind::ENUMERATION, token, first, role::NONE);
                Ok(())
            }
            Select => {
                let token = self.take();
                self.identifiers(kind::NAME, role::SELECT_NAME)?;
                self.node(kind::SELECT, token, first, role::NONE);
                Ok(())
            }
            _ => self.base(role::RENAMED_TYPE),
        }
    }

    fn identifiers(&mut self, kind: u8, role: u8) -> Step {
        self.expect(OpenParenthesis)?;
        self.separated(kind, role)?;
        self.expect(CloseParenthesis)?;
        Ok(())
    }

    /// Identifiers with commas between, a leaf for each; gives the first.
    fn separated(&mut self, kind: u8, role: u8) -> Step<u32> {
        let first = self.expect(Identifier)?;
        self.leaf(kind, first, role);
        while self.take_if(Comma) {
            let token = self.expect(Identifier)?;
            self.leaf(kind, token, role);
        }
        Ok(first)
    }

    /// An optional WHERE with its rules, up to the word that ends the declaration.
    fn rules(&mut self, end: Terminal) -> Step {
        if !self.take_if(Where) {
            return Ok(());
        }
        self.rule()?;
        while self.peek() != end {
            self.rule()?;
        }
        Ok(())
    }

    /// No expression has a colon after its first token, so a colon there makes that token a label.
    fn rule(&mut self) -> Step {
        let first = self.nodes.len();
        let token = self.at as u32;
        let labelled = self.peek() == Identifier && self.after(1) == Colon;
        if labelled {
            self.at += 2;
        }
        self.expression()?;
        self.expect(Semicolon)?;
        let role = if labelled { role::LABELLED } else { role::UNLABELLED };
        self.node(kind::RULE, token, first, role);
        Ok(())
    }

    fn entity(&mut self) -> Step {
        let first = self.nodes.len();
        self.expect(Entity)?;
        let name = self.expect(Identifier)?;
        if self.take_if(Subtype) {
            self.expect(Of)?;
            self.identifiers(kind::NAME, role::SUPERTYPE)?;
        }
        self.expect(Semicolon)?;
        while self.peek() == Identifier {
            self.attributes()?;
        }
        if self.take_if(Derive) {
            self.initialised(kind::DERIVED)?;
            while self.peek() == Identifier {
                self.initialised(kind::DERIVED)?;
            }
        }
        self.rules(EndEntity)?;
        self.expect(EndEntity)?;
        self.expect(Semicolon)?;
        self.node(kind::ENTITY, name, first, role::NONE);
        Ok(())
    }

    fn attributes(&mut self) -> Step {
        let first = self.nodes.len();
        let token = self.separated(kind::ATTRIBUTE, role::NONE)?;
        self.expect(Colon)?;
        let optional = self.take_if(Optional);
        self.base(role::TYPE_NAME)?;
        self.expect(Semicolon)?;
        let kind = if optional { kind::OPTIONAL_GROUP } else { kind::ATTRIBUTE_GROUP };
        self.node(kind, token, first, role::NONE);
        Ok(())
    }

    fn expression(&mut self) -> Step {
        let first = self.nodes.len();
        self.sum()?;
        if self.peek().is_relation() {
            let operator = self.take();
            self.sum()?;
            self.node(kind::BINARY_OPERATOR, operator, first, role::NONE);
        }
        Ok(())
    }

    fn sum(&mut self) -> Step {
        let first = self.nodes.len();
        self.term()?;
        while matches!(self.peek(), Plus | Minus | Or | Xor) {
            let operator = self.take();
            self.term()?;
            self.node(kind::BINARY_OPERATOR, operator, first, role::NONE);
        }
        Ok(())
    }

    fn term(&mut self) -> Step {
        let first = self.nodes.len();
        self.factor()?;
        while matches!(self.peek(), Times | Divide | Div | Mod | And) {
            let operator = self.take();
            self.factor()?;
            self.node(kind::BINARY_OPERATOR, operator, first, role::NONE);
        }
        Ok(())
    }

    fn factor(&mut self) -> Step {
        let first = self.nodes.len();
        self.operand()?;
        if self.peek() == Power {
            let operator = self.take();
            self.operand()?;
            self.node(kind::BINARY_OPERATOR, operator, first, role::NONE);
        }
        Ok(())
    }

    fn operand(&mut self) -> Step {
        match self.peek() {
            Identifier if self.after(1) == Dot => {
                self.at += 2;
                let item = self.expect(Identifier)?;
                self.leaf(kind::QUALIFIED_ITEM, item, role::NONE);
                Ok(())
            }
            OpenBrace => self.interval(),
            Plus | Minus | Not => {
                let first = self.nodes.len();
                let operator = self.take();
                self.primary()?;
                self.node(kind::UNARY, operator, first, role::NONE);
                Ok(())
            }
            _ => self.primary(),
        }
    }

    /// What may stand after a sign or NOT: an expression in parentheses, or a leaf other than `type.item`.
    fn primary(&mut self) -> Step {
        match self.peek() {
            OpenParenthesis => {
                self.open()?;
                self.expression()?;
                return self.close(CloseParenthesis);
            }
            IntegerLiteral => self.take_leaf(kind::INTEGER, role::NONE),
            BinaryLiteral => self.take_leaf(kind::BINARY, role::NONE),
            True | False | Unknown => self.take_leaf(kind::LOGICAL, role::NONE),
            Question => self.take_leaf(kind::INDETERMINATE, role::NONE),
            RealLiteral | StringLiteral | Pi | ConstE => self.take_leaf(kind::REAL_OR_STRING, role::NONE),
            Identifier => self.take_leaf(kind::NAME, role::EXPRESSION_NAME),
            SelfWord => self.take_leaf(kind::SELF, role::NONE),
            _ => return self.stop(4),
        }
        Ok(())
    }

    fn interval(&mut self) -> Step {
        let first = self.nodes.len();
        let token = self.open()?;
        self.sum()?;
        self.interval_operator()?;
        self.sum()?;
        self.interval_operator()?;
        self.sum()?;
        self.close(CloseBrace)?;
        self.node(kind::INTERVAL, token, first, role::NONE);
        Ok(())
    }

    fn interval_operator(&mut self) -> Step {
        if !matches!(self.peek(), Less | LessOrEqual) {
            return self.stop(4);
        }
        self.take_leaf(kind::INTERVAL_OPERATOR, role::NONE);
        Ok(())
    }

    /// Takes a parenthesis or brace that the grammar allows here, unless it is the 65th open at once.
    fn open(&mut self) -> Step<u32> {
        if self.open == MAX_OPEN {
            return self.stop(5);
        }
        self.open += 1;
        Ok(self.take())
    }

    fn close(&mut self, terminal: Terminal) -> Step {
        self.expect(terminal)?;
        self.open -= 1;
        Ok(())
    }
}

impl Terminal {
    /// Whether this is an operator of rule 287's relations.
    pub fn is_relation(self) -> bool {
        matches!(
            self,
            Less | Greater | LessOrEqual | GreaterOrEqual | NotEqual | Equal | InstanceNotEqual | InstanceEqual
        )
    }
}
