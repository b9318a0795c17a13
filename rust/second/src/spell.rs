//! Spells a book or a certificate out as fields with their widths, without any
//! check, and packs fields to bytes.

use crate::model::{Book, Certificate, Closing, Filling, Line, Proof, Use};
use crate::term::Term;

#[derive(Clone, Copy, Debug, PartialEq, Eq)]
pub struct Field {
    pub value: u16,
    pub width: u32,
}

/// Collects fields in file order.
#[derive(Default)]
pub struct Speller {
    pub fields: Vec<Field>,
}

impl Speller {
    pub fn put(&mut self, value: u64, width: u32) {
        self.fields.push(Field { value: value.min(0xFFFF) as u16, width });
    }

    pub fn book(&mut self, book: &Book) {
        self.put(book.arities.len() as u64, 8);
        for arity in &book.arities {
            self.put(u64::from(*arity), 4);
        }
        self.put(book.rules.len() as u64, 8);
        for rule in &book.rules {
            self.put(rule.calls.len() as u64, 4);
            self.term(&rule.head);
            rule.calls.iter().for_each(|call| self.term(call));
        }
    }

    pub fn certificate(&mut self, certificate: &Certificate) {
        self.put(certificate.lines.len() as u64, 8);
        certificate.lines.iter().for_each(|line| self.line(line));
        self.closing(&certificate.closing);
    }

    pub fn term(&mut self, term: &Term) {
        match term {
            Term::Var(name) => {
                self.put(0, 2);
                self.put(u64::from(*name), 6);
            }
            Term::Fun(symbol, arguments) => {
                self.put(1, 2);
                self.put(u64::from(*symbol), 8);
                arguments.iter().for_each(|argument| self.term(argument));
            }
            Term::Pow { symbol, a, b, arg } => {
                self.put(2, 2);
                self.put(u64::from(*symbol), 8);
                self.put(*a, 12);
                self.put(*b, 12);
                self.term(arg);
            }
        }
    }

    fn line(&mut self, line: &Line) {
        self.put(u64::from(matches!(line.proof, Proof::Descent { .. })), 1);
        self.term(&line.left);
        self.put(u64::from(line.right.is_some()), 1);
        line.right.iter().for_each(|right| self.term(right));
        match &line.proof {
            Proof::Unfold { rule, stop, filling, before, last } => {
                self.put(u64::from(*rule), 8);
                self.put(u64::from(*stop), 4);
                self.filling(filling);
                before.iter().for_each(|one| self.one_use(one));
                if *stop != 0 {
                    self.put(u64::from(last.is_some()), 1);
                    last.iter().for_each(|one| self.one_use(one));
                }
            }
            Proof::Descent { base, rule, filling } => {
                self.one_use(base);
                self.put(u64::from(*rule), 8);
                self.filling(filling);
            }
        }
    }

    fn one_use(&mut self, one: &Use) {
        self.put(u64::from(one.line), 8);
        self.put(one.i, 12);
        self.put(one.j, 12);
        self.filling(&one.filling);
    }

    fn filling(&mut self, filling: &Filling) {
        self.put(filling.len() as u64, 7);
        for (variable, term) in filling {
            self.put(u64::from(*variable), 6);
            self.term(term);
        }
    }

    fn closing(&mut self, closing: &Closing) {
        self.put(u64::from(closing.line), 8);
        self.put(closing.k, 12);
        self.put(closing.alpha, 12);
        self.filling(&closing.filling);
    }
}

pub fn book_fields(book: &Book) -> Vec<Field> {
    let mut speller = Speller::default();
    speller.book(book);
    speller.fields
}

pub fn certificate_fields(certificate: &Certificate) -> Vec<Field> {
    let mut speller = Speller::default();
    speller.certificate(certificate);
    speller.fields
}

/// The values alone: a field list.
pub fn values(fields: &[Field]) -> Vec<u16> {
    fields.iter().map(|field| field.value).collect()
}

/// Packs the fields, most significant bit first, with zero bits up to the next
/// whole byte. Bits of a value above its width are lost.
pub fn pack(fields: &[Field]) -> Vec<u8> {
    let bits: usize = fields.iter().map(|field| field.width as usize).sum();
    let mut bytes = vec![0u8; bits.div_ceil(8)];
    let mut at = 0;
    for field in fields {
        for place in (0..field.width).rev() {
            if field.value >> place & 1 == 1 {
                bytes[at / 8] |= 0x80 >> (at % 8);
            }
            at += 1;
        }
    }
    bytes
}

pub fn call_fields(call: &Term) -> Vec<Field> {
    let mut speller = Speller::default();
    speller.term(call);
    speller.fields
}

pub fn pack_call(call: &Term) -> Vec<u8> {
    pack(&call_fields(call))
}

pub fn pack_book(book: &Book) -> Vec<u8> {
    pack(&book_fields(book))
}

pub fn pack_certificate(certificate: &Certificate) -> Vec<u8> {
    pack(&certificate_fields(certificate))
}
