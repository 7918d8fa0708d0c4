//! Numbers with names, as the Rattle crate `codes` has them; a test holds the two to each other.

/// An enum of numbers, each with its name in `codes`.
macro_rules! numbered {
    ($(#[$about:meta])* $name:ident { $($(#[$doc:meta])* $case:ident = $number:literal $code:literal,)* }) => {
        $(#[$about])*
        #[derive(Clone, Copy, Debug, PartialEq, Eq, Hash, PartialOrd, Ord)]
        #[repr(u8)]
        pub enum $name {
            $($(#[$doc])* $case = $number,)*
        }

        impl $name {
            /// All of them, by their numbers.
            pub const ALL: &'static [$name] = &[$($name::$case),*];

            /// Its number.
            pub const fn number(self) -> u8 {
                self as u8
            }

            /// Its name in the crate `codes` and, with a prefix, in `woffulent.h`.
            pub const fn name(self) -> &'static str {
                match self {
                    $($name::$case => $code,)*
                }
            }

            /// The one of a number.
            pub const fn from_number(number: u8) -> Option<$name> {
                match number {
                    $($number => Some($name::$case),)*
                    _ => None,
                }
            }
        }
    };
}

numbered! {
    /// The reply of a check (R2): 0 accepts, every other refuses.
    Reply {
        /// The file is accepted.
        Accepted = 0 "ACCEPTED",
        /// It has more than 65,536 bytes.
        TooLong = 1 "TOO_LONG",
        /// A byte begins no token, or a remark, string or binary has no end.
        NoToken = 2 "NO_TOKEN",
        /// An integer, a binary or a string is larger than is read.
        TooLarge = 3 "TOO_LARGE",
        /// A token cannot stand where it does, or the file ends too early.
        Unexpected = 4 "UNEXPECTED",
        /// More than 64 parentheses and intervals are open.
        TooDeep = 5 "TOO_DEEP",
        /// The token table has too few rows.
        TokensShort = 6 "TOKENS_SHORT",
        /// The node table has too few rows.
        NodesShort = 7 "NODES_SHORT",
        /// The answer table has too few rows.
        AnswersShort = 8 "ANSWERS_SHORT",
        /// Two names of one scope are alike.
        Repeated = 9 "REPEATED",
        /// A name is not found.
        NotFound = 10 "NOT_FOUND",
        /// A name means what may not stand there; SELF in a constant.
        WrongSort = 11 "WRONG_SORT",
        /// A name has two meanings, or is that of an inherited attribute.
        Ambiguous = 12 "AMBIGUOUS",
        /// A declaration depends on itself.
        Cycle = 13 "CYCLE",
        /// A constant has or uses what is not evaluated.
        NotEvaluated = 14 "NOT_EVALUATED",
        /// Operands, or an expression and its declared type, do not fit.
        Misfit = 15 "MISFIT",
        /// The room has fewer bytes than all string answers together.
        RoomShort = 20 "ROOM_SHORT",
    }
}

impl Reply {
    /// What the reply says of any file, in a sentence.
    pub const fn meaning(self) -> &'static str {
        match self {
            Reply::Accepted => "The file is accepted.",
            Reply::TooLong => "The file has more than 65,536 bytes, which is the most that is read.",
            Reply::NoToken => "No token begins here, or one begins that has no end.",
            Reply::TooLarge => "This literal is too large.",
            Reply::Unexpected => "This cannot stand here.",
            Reply::TooDeep => "More than 64 parentheses and intervals are open here.",
            Reply::TokensShort => "The token table has too few rows for this file.",
            Reply::NodesShort => "The node table has too few rows for this file.",
            Reply::AnswersShort => "The answer table has too few rows for this file.",
            Reply::Repeated => "This name is declared twice.",
            Reply::NotFound => "This name is not declared.",
            Reply::WrongSort => "This name means something that may not stand here.",
            Reply::Ambiguous => "This name has two meanings.",
            Reply::Cycle => "This declaration depends on itself.",
            Reply::NotEvaluated => "This is not evaluated.",
            Reply::Misfit => "Two kinds do not fit here.",
            Reply::RoomShort => "The room has too few bytes for the strings of this file.",
        }
    }
}

numbered! {
    /// The kind of an answer's row (K35), but for the ends, which are kinds too.
    AnswerKind {
        /// `?`
        Indeterminate = 0 "INDETERMINATE",
        /// An integer.
        Integer = 1 "INTEGER",
        /// A logical value.
        Logical = 2 "LOGICAL",
        /// A binary.
        Binary = 3 "BINARY",
        /// An item of an enumeration.
        Item = 4 "ITEM",
        /// A string.
        String = 5 "STRING",
    }
}

numbered! {
    /// Why a constant has no value (R4).
    End {
        /// The result does not fit into 64 signed bits, or a binary has more than 63 bits, or a string more than 255 bytes.
        Outside = 16 "OUTSIDE",
        /// DIV or MOD by 0.
        ZeroDivisor = 17 "ZERO_DIVISOR",
        /// `**` with a negative right operand.
        NegativePower = 18 "NEGATIVE_POWER",
        /// A BOOLEAN that comes to UNKNOWN.
        UnknownBoolean = 19 "UNKNOWN_BOOLEAN",
    }
}

numbered! {
    /// What a token is (T18).
    TokenKind {
        /// A word, reserved or not.
        Word = 1 "WORD",
        /// An integer literal.
        Integer = 2 "INTEGER",
        /// A real literal.
        Real = 3 "REAL",
        /// A string literal.
        String = 4 "STRING",
        /// A binary literal.
        Binary = 5 "BINARY",
        /// A symbol.
        Symbol = 6 "SYMBOL",
    }
}

numbered! {
    /// What a node is (G32).
    NodeKind {
        /// An integer literal.
        Integer = 1 "INTEGER",
        /// A binary literal.
        Binary = 2 "BINARY",
        /// TRUE, FALSE or UNKNOWN.
        Logical = 3 "LOGICAL",
        /// `?`
        Indeterminate = 4 "INDETERMINATE",
        /// A string, or what is not evaluated: a real, PI or CONST_E.
        Other = 5 "OTHER",
        /// A name.
        Name = 6 "NAME",
        /// `type.item`, named by the item.
        QualifiedItem = 7 "QUALIFIED_ITEM",
        /// SELF.
        SelfReference = 8 "SELF_REFERENCE",
        /// A sign or NOT, and its operand.
        Unary = 9 "UNARY",
        /// An operator of two operands.
        TwoOperand = 10 "TWO_OPERAND",
        /// An interval: low, operator, item, operator, high.
        Interval = 11 "INTERVAL",
        /// `<` or `<=` of an interval.
        IntervalOperator = 12 "INTERVAL_OPERATOR",
        /// A simple type.
        SimpleType = 13 "SIMPLE_TYPE",
        /// An enumeration item.
        Item = 14 "ITEM",
        /// An enumeration.
        Enumeration = 15 "ENUMERATION",
        /// A select.
        Select = 16 "SELECT",
        /// A constant: its type, its expression.
        Constant = 17 "CONSTANT",
        /// A type: what it is, its rules.
        Type = 18 "TYPE",
        /// The name of an attribute.
        AttributeName = 19 "ATTRIBUTE_NAME",
        /// Attributes of one type.
        AttributeGroup = 20 "ATTRIBUTE_GROUP",
        /// The same with OPTIONAL.
        OptionalGroup = 21 "OPTIONAL_GROUP",
        /// A derived attribute.
        DerivedAttribute = 22 "DERIVED_ATTRIBUTE",
        /// A rule of a WHERE.
        Rule = 23 "RULE",
        /// An entity.
        Entity = 24 "ENTITY",
        /// A schema.
        Schema = 25 "SCHEMA",
        /// The file.
        File = 26 "FILE",
    }
}
