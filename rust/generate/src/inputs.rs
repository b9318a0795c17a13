//! Inputs for judges, in the program's framing.

use crate::damage::{change_bytes, change_fields, change_trees, flip_bits, flip_near_the_end};
use crate::faults::{accepted, failing, fits_the_files, Goal, GOALS};
use crate::placing::two_sides;
use crate::random::Random;
use crate::scramble::scrambled;
use crate::sides::{Parting, PARTINGS};
use crate::world::Case;
use second::spell::{book_fields, certificate_fields, pack, pack_book, pack_certificate};

/// How an input was made.
#[derive(Clone, Copy, Debug, PartialEq, Eq)]
pub enum Kind {
    Accepted(&'static str),
    Failing(Goal),
    Sides(Parting),
    Bits,
    Bytes,
    Fields,
    Trees,
    Frame,
    Long,
}

#[derive(Clone, Debug)]
pub struct Input {
    pub kind: Kind,
    pub book: Vec<u8>,
    pub certificate: Vec<u8>,
    /// Two bytes of length, the book and the certificate; with `Kind::Frame`
    /// perhaps something else.
    pub framed: Vec<u8>,
}

pub struct Inputs {
    random: Random,
}

impl Inputs {
    pub fn new(seed: u64) -> Inputs {
        Inputs { random: Random::new(seed) }
    }

    pub fn next_input(&mut self) -> Input {
        let random = &mut self.random;
        match random.below(220) {
            0..=39 => self.accepted(),
            40..=99 => self.failing(),
            100..=124 => self.damaged(Kind::Bits),
            125..=144 => self.damaged(Kind::Bytes),
            145..=174 => self.damaged(Kind::Fields),
            175..=192 => self.trees(),
            193..=196 => self.frame(),
            197..=199 => self.long(),
            _ => self.sides(),
        }
    }

    fn accepted(&mut self) -> Input {
        let (name, case) = accepted(&mut self.random);
        of_case(Kind::Accepted(name), &case)
    }

    fn failing(&mut self) -> Input {
        let goal = match self.random.below(8) {
            0 | 1 => Goal::LargeSide,
            2 => Goal::UnfoldCall,
            _ => *self.random.pick(&GOALS),
        };
        of_case(Kind::Failing(goal), &failing(goal, &mut self.random))
    }

    /// Two sides that part at a chosen node, or nowhere.
    fn sides(&mut self) -> Input {
        let random = &mut self.random;
        loop {
            let parting = *random.pick(&PARTINGS);
            let Some(mut case) = two_sides(parting, random) else { continue };
            if random.chance(1, 2) {
                case = scrambled(case, random);
            }
            if fits_the_files(&case) {
                return of_case(Kind::Sides(parting), &case);
            }
        }
    }

    /// Either an accepted or a failing pair, as a start for damage.
    fn start(&mut self) -> Case {
        if self.random.chance(3, 4) {
            accepted(&mut self.random).1
        } else {
            let goal = *self.random.pick(&GOALS);
            failing(goal, &mut self.random)
        }
    }

    fn damaged(&mut self, kind: Kind) -> Input {
        let case = self.start();
        let random = &mut self.random;
        let mut book = book_fields(&case.book);
        let mut certificate = certificate_fields(&case.certificate);
        let in_book = random.chance(1, 3);
        if kind == Kind::Fields {
            change_fields(if in_book { &mut book } else { &mut certificate }, random);
        }
        let mut book = pack(&book);
        let mut certificate = pack(&certificate);
        let file = if in_book { &mut book } else { &mut certificate };
        match kind {
            Kind::Bits if random.chance(1, 6) => flip_near_the_end(file, random),
            Kind::Bits => flip_bits(file, random),
            Kind::Bytes => change_bytes(file, random),
            _ => (),
        }
        of_files(kind, book, certificate)
    }

    fn trees(&mut self) -> Input {
        let mut case = self.start();
        for _ in 0..self.random.between(1, 2) {
            change_trees(&mut case, &mut self.random);
        }
        of_case(Kind::Trees, &case)
    }

    /// Damage to the two bytes of length, or an input cut short.
    fn frame(&mut self) -> Input {
        let case = self.start();
        let mut input = of_case(Kind::Frame, &case);
        let random = &mut self.random;
        match random.below(3) {
            0 => input.framed[1] ^= random.between(1, 255) as u8,
            1 => input.framed[0] ^= random.between(1, 255) as u8,
            _ => {
                let most = input.framed.len();
                input.framed.truncate(random.below(most.min(4 + most / 2)));
            }
        }
        input
    }

    /// Files at and over their largest sizes.
    fn long(&mut self) -> Input {
        let case = self.start();
        let mut book = pack_book(&case.book);
        let mut certificate = pack_certificate(&case.certificate);
        let random = &mut self.random;
        if random.chance(1, 2) {
            book.resize(16_383 + random.below(3), 0);
        }
        if random.chance(2, 3) {
            certificate.resize(32_767 + random.below(3), 0);
        }
        of_files(Kind::Long, book, certificate)
    }
}

fn of_case(kind: Kind, case: &Case) -> Input {
    of_files(kind, pack_book(&case.book), pack_certificate(&case.certificate))
}

fn of_files(kind: Kind, book: Vec<u8>, certificate: Vec<u8>) -> Input {
    let length = (book.len().min(0xFFFF) as u16).to_be_bytes();
    let framed = [&length[..], &book, &certificate].concat();
    Input { kind, book, certificate, framed }
}
