//! The kinds of field, as docs/RULES.md names them: how wide each is, and what a
//! message says was expected there.

#[derive(Clone, Copy, Debug, PartialEq, Eq)]
pub enum Kind {
    SymbolCount,
    Arity,
    RuleCount,
    CallCount,
    Tag,
    Variable,
    Symbol,
    PowerSymbol,
    /// The a of a power in a book.
    BookA,
    /// The a of a power in a call.
    CallA,
    A,
    B,
    LineCount,
    LineKind,
    RightBit,
    Rule,
    /// The rule of a descent.
    DescentRule,
    Stop,
    UseBit,
    UsedLine,
    I,
    J,
    FillingCount,
    FilledVariable,
    NamedLine,
    K,
    Alpha,
}

impl Kind {
    /// The field's bits.
    pub fn width(self) -> u32 {
        match self {
            Kind::LineKind | Kind::RightBit | Kind::UseBit => 1,
            Kind::Tag => 2,
            Kind::Arity | Kind::CallCount | Kind::Stop => 4,
            Kind::Variable | Kind::FilledVariable => 6,
            Kind::FillingCount => 7,
            Kind::SymbolCount | Kind::RuleCount | Kind::LineCount => 8,
            Kind::Symbol | Kind::PowerSymbol => 8,
            Kind::Rule | Kind::DescentRule | Kind::UsedLine | Kind::NamedLine => 8,
            Kind::BookA | Kind::CallA | Kind::A | Kind::B => 12,
            Kind::I | Kind::J | Kind::K | Kind::Alpha => 12,
        }
    }

    /// Is its value counted, not written?
    pub fn is_count(self) -> bool {
        matches!(
            self,
            Kind::SymbolCount
                | Kind::RuleCount
                | Kind::CallCount
                | Kind::LineCount
                | Kind::FillingCount
        )
    }

    /// What is expected in such a field.
    pub fn expected(self) -> &'static str {
        match self {
            Kind::SymbolCount => "at most 255 symbols",
            Kind::Arity => "an arity from 0 to 8",
            Kind::RuleCount => "at most 255 rules",
            Kind::CallCount => "at most 8 calls",
            Kind::Tag => "a symbol, since a head or a call is no variable",
            Kind::Variable => "a variable from V0 to V63",
            Kind::Symbol => "a symbol of the book of an arity other than 1",
            Kind::PowerSymbol => "a symbol of the book of arity 1",
            Kind::BookA => "a = 0 in a book",
            Kind::CallA => "a = 0 in a call",
            Kind::A | Kind::B | Kind::I | Kind::J | Kind::K => "a number from 0 to 4095",
            Kind::LineCount => "at most 255 lines",
            Kind::LineKind => "an unfold or a descent",
            Kind::RightBit => "`empty` or a term",
            Kind::Rule => "the number of a rule of the book",
            Kind::DescentRule => "the number of a rule of the book with exactly one call",
            Kind::Stop => "0 for a rule without calls, else a number from 1 to that of its calls",
            Kind::UseBit => "`here` or `through`",
            Kind::UsedLine => "the number of an earlier line",
            Kind::FillingCount => "at most 64 variables in a filling",
            Kind::FilledVariable => "a variable from V0 to V63, above the one before it",
            Kind::NamedLine => "the number of a line above",
            Kind::Alpha => "a number from 0 to 4095, with k at most 4095",
        }
    }

    /// What is expected where the writer refuses the field with this number.
    pub fn expected_for(self, refusal: u8) -> &'static str {
        match (self, refusal) {
            (Kind::PowerSymbol, 5) => "one power, or another symbol than the one directly above",
            (Kind::B, 5) => "b above 0, since a is 0",
            (_, 6) => "at most 256 nodes in a term",
            _ => self.expected(),
        }
    }
}
