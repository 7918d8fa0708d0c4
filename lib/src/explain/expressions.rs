//! The reader of expressions (G15 to G21).

use super::reader::{Reader, Role, Step, Wanted};
use super::words::{ADDITIONS, COMPARISONS, MULTIPLICATIONS, RELATIONS, SIGNS};
use crate::codes::{NodeKind, TokenKind};

/// The most parentheses and intervals that are open at once (G28).
const MOST_OPEN: usize = 64;

impl Reader<'_> {
    pub(super) fn expression(&mut self) -> Step {
        let first = self.rows.len();
        self.sum()?;
        if self.sees_one(&RELATIONS, Wanted::Operator) {
            let operator = self.take();
            self.sum()?;
            self.row(NodeKind::TwoOperand, operator, first, Role::None);
        }
        Some(())
    }

    fn sum(&mut self) -> Step {
        let first = self.rows.len();
        self.term()?;
        while self.sees_one(&ADDITIONS, Wanted::Operator) {
            let operator = self.take();
            self.term()?;
            self.row(NodeKind::TwoOperand, operator, first, Role::None);
        }
        Some(())
    }

    fn term(&mut self) -> Step {
        let first = self.rows.len();
        self.factor()?;
        while self.sees_one(&MULTIPLICATIONS, Wanted::Operator) {
            let operator = self.take();
            self.factor()?;
            self.row(NodeKind::TwoOperand, operator, first, Role::None);
        }
        Some(())
    }

    fn factor(&mut self) -> Step {
        let first = self.rows.len();
        self.operand()?;
        if let Some(operator) = self.take_if(Wanted::Operator("**")) {
            self.operand()?;
            self.row(NodeKind::TwoOperand, operator, first, Role::None);
        }
        Some(())
    }

    fn operand(&mut self) -> Step {
        let first = self.rows.len();
        if let Some(name) = self.name() {
            if self.expect(".").is_some() {
                let item = self.name()?;
                self.leaf(NodeKind::QualifiedItem, item, Role::None);
            } else {
                self.leaf(NodeKind::Name, name, Role::InExpression);
            }
            Some(())
        } else if self.sees(Wanted::Operand("{")) {
            self.interval()
        } else if self.sees_one(&SIGNS, Wanted::Operand) {
            let sign = self.take();
            self.atom()?;
            self.row(NodeKind::Unary, sign, first, Role::None);
            Some(())
        } else {
            self.atom()
        }
    }

    /// What may have a sign before it.
    fn atom(&mut self) -> Step {
        if self.sees(Wanted::Operand("(")) {
            self.opened()?;
            self.expression()?;
            self.expect(")")?;
            self.open -= 1;
            return Some(());
        }
        let (kind, role) = self.leaf_here()?;
        let token = self.take();
        self.leaf(kind, token, role);
        Some(())
    }

    /// What the operand of one token is that stands here.
    fn leaf_here(&mut self) -> Step<(NodeKind, Role)> {
        let leaves = [
            (Wanted::Name, NodeKind::Name),
            (Wanted::Literal(TokenKind::Integer), NodeKind::Integer),
            (Wanted::Literal(TokenKind::Binary), NodeKind::Binary),
            (Wanted::Literal(TokenKind::Real), NodeKind::Other),
            (Wanted::Literal(TokenKind::String), NodeKind::Other),
            (Wanted::Operand("TRUE"), NodeKind::Logical),
            (Wanted::Operand("FALSE"), NodeKind::Logical),
            (Wanted::Operand("UNKNOWN"), NodeKind::Logical),
            (Wanted::Operand("?"), NodeKind::Indeterminate),
            (Wanted::Operand("PI"), NodeKind::Other),
            (Wanted::Operand("CONST_E"), NodeKind::Other),
            (Wanted::Operand("SELF"), NodeKind::SelfReference),
        ];
        let (_, kind) = leaves.into_iter().find(|&(wanted, _)| self.sees(wanted))?;
        Some((kind, if kind == NodeKind::Name { Role::InExpression } else { Role::None }))
    }

    fn interval(&mut self) -> Step {
        let (first, token) = (self.rows.len(), self.at);
        self.opened()?;
        self.sum()?;
        for _ in 0..2 {
            self.sees_one(&COMPARISONS, Wanted::Operator).then_some(())?;
            let comparison = self.take();
            self.leaf(NodeKind::IntervalOperator, comparison, Role::None);
            self.sum()?;
        }
        self.expect("}")?;
        self.open -= 1;
        self.row(NodeKind::Interval, token, first, Role::None);
        Some(())
    }

    /// Takes a parenthesis or brace, as long as so many may be open: the recursion goes no deeper.
    fn opened(&mut self) -> Step {
        if self.open == MOST_OPEN {
            self.wanted.clear();
            return None;
        }
        self.open += 1;
        self.take();
        Some(())
    }
}
