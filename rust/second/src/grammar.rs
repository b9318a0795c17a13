//! The packed layout, field by field. One grammar serves reading (fields come
//! from bits) and writing (fields come from a list).

use crate::answer::{Refusal, BOOK, CALL, CERTIFICATE};
use crate::model::{Book, Certificate, Closing, Filling, Line, Proof, Rule, Use};
use crate::source::Source;
use crate::spell::Field;
use crate::term::Term;

/// "Terms in files are normal and have at most 256 nodes."
pub const FILE_NODES: usize = 256;
const LARGEST_ARITY: u16 = 8;
const MOST_CALLS: u16 = 8;
const MOST_FILLED: u16 = 64;
const LARGEST_START: u64 = 4_095;

type Parsed<T> = Result<T, Refusal>;

pub struct Parser<S: Source> {
    source: S,
    /// "For 3 to 7, W is the file".
    w: u8,
    /// All fields taken so far, in file order.
    pub fields: Vec<Field>,
}

/// What a node must know of its surroundings.
#[derive(Clone, Copy)]
struct Above {
    /// The symbol of the power directly above, if a power stands there.
    power: Option<u8>,
    /// The node is the root of a head or of a call of a rule.
    call_root: bool,
}

const AT_TERM_ROOT: Above = Above { power: None, call_root: false };
const AT_CALL_ROOT: Above = Above { power: None, call_root: true };

/// Parses a whole rule book.
pub fn whole_book<S: Source>(source: S) -> Parsed<(Book, Vec<Field>)> {
    let mut parser = Parser::new(source, BOOK);
    let book = parser.book()?;
    parser.end()?;
    Ok((book, parser.fields))
}

/// Parses a whole certificate of a book.
pub fn whole_certificate<S: Source>(source: S, book: &Book) -> Parsed<(Certificate, Vec<Field>)> {
    let mut parser = Parser::new(source, CERTIFICATE);
    let certificate = parser.certificate(book)?;
    parser.end()?;
    Ok((certificate, parser.fields))
}

/// Parses a whole call over the symbols of a book: one term without index,
/// "padded as a file". Its root may be a variable.
pub fn whole_call<S: Source>(source: S, arities: &[u8]) -> Parsed<(Term, Vec<Field>)> {
    let mut parser = Parser::new(source, CALL);
    let call = parser.term(arities)?;
    parser.end()?;
    Ok((call, parser.fields))
}

impl<S: Source> Parser<S> {
    fn new(source: S, w: u8) -> Parser<S> {
        Parser { source, w, fields: Vec::new() }
    }

    fn refusal(&self, number: u8, place: u64) -> Refusal {
        Refusal::new(number, self.w, place, 0)
    }

    /// Takes one field: 3 if it "begins or runs past the end", 4 if it "is
    /// outside the range stated above, or too wide when writing".
    fn field(&mut self, width: u32, in_range: impl Fn(u16) -> bool) -> Parsed<u16> {
        let place = self.source.place();
        let value = self.source.next(width).ok_or(self.refusal(3, place))?;
        if value >> width != 0 || !in_range(value) {
            return Err(self.refusal(4, place));
        }
        self.fields.push(Field { value, width });
        Ok(value)
    }

    fn any_field(&mut self, width: u32) -> Parsed<u16> {
        self.field(width, |_| true)
    }

    /// "a padding bit is 1, or bytes or fields are left over": 7 at "the first
    /// bit after the last field".
    fn end(&mut self) -> Parsed<()> {
        if self.source.ends_here() {
            Ok(())
        } else {
            Err(self.refusal(7, self.source.place()))
        }
    }

    /// "symbol count 8 bits; each arity 4; rule count 8; each rule"
    fn book(&mut self) -> Parsed<Book> {
        let symbols = self.any_field(8)?;
        let mut arities = Vec::new();
        for _ in 0..symbols {
            arities.push(self.field(4, |arity| arity <= LARGEST_ARITY)? as u8);
        }
        let count = self.any_field(8)?;
        let mut rules = Vec::new();
        for _ in 0..count {
            rules.push(self.rule(&arities)?);
        }
        Ok(Book { arities, rules })
    }

    /// "call count 4 (0 to 8), head, calls"
    fn rule(&mut self, arities: &[u8]) -> Parsed<Rule> {
        let count = self.field(4, |count| count <= MOST_CALLS)?;
        let head = self.call(arities)?;
        let mut calls = Vec::new();
        for _ in 0..count {
            calls.push(self.call(arities)?);
        }
        Ok(Rule { head, calls })
    }

    fn call(&mut self, arities: &[u8]) -> Parsed<Term> {
        self.node(arities, &mut { FILE_NODES }, AT_CALL_ROOT)
    }

    fn term(&mut self, arities: &[u8]) -> Parsed<Term> {
        self.node(arities, &mut { FILE_NODES }, AT_TERM_ROOT)
    }

    /// "a 2-bit tag for each node, and a node is followed at once by its
    /// arguments"
    fn node(&mut self, arities: &[u8], allowance: &mut usize, above: Above) -> Parsed<Term> {
        // "a 257th node would begin, found before its tag is read"
        if *allowance == 0 {
            return Err(self.refusal(6, self.source.place()));
        }
        *allowance -= 1;
        // "Roots may not be variables (4 at the tag)." "Tag 3 is refused."
        let tag = self.field(2, |tag| tag != 3 && !(above.call_root && tag == 0))?;
        match tag {
            0 => Ok(Term::Var(self.any_field(6)? as u8)),
            1 => self.function(arities, allowance),
            _ => self.power(arities, allowance, above),
        }
    }

    /// "symbol, 8 bits, arity not 1"
    fn function(&mut self, arities: &[u8], allowance: &mut usize) -> Parsed<Term> {
        let fits = |symbol: u16| arity_of(arities, symbol).is_some_and(|arity| arity != 1);
        let symbol = self.field(8, fits)?;
        let mut arguments = Vec::new();
        for _ in 0..arities[usize::from(symbol)] {
            arguments.push(self.node(arities, allowance, AT_TERM_ROOT)?);
        }
        Ok(Term::Fun(symbol as u8, arguments))
    }

    /// "power, symbol 8 bits of arity 1, a 12 bits, b 12 bits"
    fn power(&mut self, arities: &[u8], allowance: &mut usize, above: Above) -> Parsed<Term> {
        let place = self.source.place();
        let unary = |symbol: u16| arity_of(arities, symbol) == Some(1);
        let symbol = self.field(8, unary)? as u8;
        // 5 "at the symbol below its like"
        if above.power == Some(symbol) {
            return Err(self.refusal(5, place));
        }
        // In a rule book "powers have a = 0"; in a call "a above 0 is 4".
        let without_index = self.w == BOOK || self.w == CALL;
        let a = self.field(12, |a| !without_index || a == 0)?;
        let place = self.source.place();
        let b = self.any_field(12)?;
        // 5 "at b if a = b = 0"
        if a == 0 && b == 0 {
            return Err(self.refusal(5, place));
        }
        let below = Above { power: Some(symbol), call_root: false };
        let arg = self.node(arities, allowance, below)?;
        Ok(Term::pow(symbol, u64::from(a), u64::from(b), arg))
    }

    /// "line count 8; lines; closing"
    fn certificate(&mut self, book: &Book) -> Parsed<Certificate> {
        let count = self.any_field(8)?;
        let mut lines = Vec::new();
        for number in 0..count {
            lines.push(self.line(book, number)?);
        }
        let closing = self.closing(book, count)?;
        Ok(Certificate { lines, closing })
    }

    /// "kind 1 bit (0 unfold, 1 descent); left; a bit that says whether a right
    /// term follows (0 is the empty mark); the right term"
    fn line(&mut self, book: &Book, number: u16) -> Parsed<Line> {
        let kind = self.any_field(1)?;
        let left = self.term(&book.arities)?;
        let right = match self.any_field(1)? {
            0 => None,
            _ => Some(self.term(&book.arities)?),
        };
        let proof = match kind {
            0 => self.unfold(book, number)?,
            _ => self.descent(book, number)?,
        };
        Ok(Line { left, right, proof })
    }

    /// "rule 8, i 4, filling, a use for each j < i, then, if i is not 0, one
    /// bit, and a use if it is 1"
    fn unfold(&mut self, book: &Book, number: u16) -> Parsed<Proof> {
        let rule = self.field(8, |rule| usize::from(rule) < book.rules.len())?;
        let calls = book.rules[usize::from(rule)].calls.len() as u16;
        // "If m = 0 then i = 0; else i is 1 to m."
        let lowest = calls.min(1);
        let stop = self.field(4, |stop| (lowest..=calls).contains(&stop))?;
        let filling = self.filling(book)?;
        let mut before = Vec::new();
        for _ in 1..stop {
            before.push(self.one_use(book, number)?);
        }
        let last = if stop != 0 && self.any_field(1)? == 1 {
            Some(self.one_use(book, number)?)
        } else {
            None
        };
        Ok(Proof::Unfold { rule: rule as u8, stop: stop as u8, filling, before, last })
    }

    /// "use, rule 8 (one of exactly one call), filling"
    fn descent(&mut self, book: &Book, number: u16) -> Parsed<Proof> {
        let base = self.one_use(book, number)?;
        let one_call =
            |rule: u16| book.rules.get(usize::from(rule)).is_some_and(|r| r.calls.len() == 1);
        let rule = self.field(8, one_call)? as u8;
        let filling = self.filling(book)?;
        Ok(Proof::Descent { base, rule, filling })
    }

    /// "line 8 (earlier than this line), i 12, j 12, filling"
    fn one_use(&mut self, book: &Book, number: u16) -> Parsed<Use> {
        let line = self.field(8, |line| line < number)? as u8;
        let i = u64::from(self.any_field(12)?);
        let j = u64::from(self.any_field(12)?);
        let filling = self.filling(book)?;
        Ok(Use { line, i, j, filling })
    }

    /// "count 7 (0 to 64), then variable 6, strictly rising, and a term"
    fn filling(&mut self, book: &Book) -> Parsed<Filling> {
        let count = self.field(7, |count| count <= MOST_FILLED)?;
        let mut filling = Filling::new();
        for _ in 0..count {
            let before = filling.last().map(|(variable, _)| u16::from(*variable));
            let variable = self.field(6, |variable| before.is_none_or(|old| old < variable))?;
            filling.push((variable as u8, self.term(&book.arities)?));
        }
        Ok(filling)
    }

    /// "line 8 (below the line count), k 12, α 12 (α + k at most 4,095),
    /// filling"; "α + k is refused at α's field".
    fn closing(&mut self, book: &Book, count: u16) -> Parsed<Closing> {
        let line = self.field(8, |line| line < count)? as u8;
        let k = u64::from(self.any_field(12)?);
        let alpha = self.field(12, |alpha| u64::from(alpha) + k <= LARGEST_START)?;
        let filling = self.filling(book)?;
        Ok(Closing { line, k, alpha: u64::from(alpha), filling })
    }
}

/// "Rule and symbol numbers lie below their counts."
fn arity_of(arities: &[u8], symbol: u16) -> Option<u8> {
    arities.get(usize::from(symbol)).copied()
}
