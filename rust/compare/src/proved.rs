//! The side that is compared with the second implementation, in its words.

use gearcinder::{
    Acceptance, Coverage as ProvedCoverage, Refusal as ProvedRefusal, Verdict as ProvedVerdict,
};
use second::{Answer, Coverage, Refusal, Verdict};

/// The six operations.
pub trait Side {
    fn judge(&self, book: &[u8], certificate: &[u8], work: &mut [u64]) -> Verdict;
    fn covers(&self, book: &[u8], certificate: &[u8], call: &[u8], work: &mut [u64]) -> Coverage;
    fn read_book(&self, book: &[u8], out: &mut [u16]) -> Answer;
    fn read_certificate(&self, book: &[u8], certificate: &[u8], out: &mut [u16]) -> Answer;
    fn write_book(&self, fields: &[u16], out: &mut [u8]) -> Answer;
    fn write_certificate(&self, book: &[u8], fields: &[u16], out: &mut [u8]) -> Answer;
}

/// The proved side.
pub struct Proved;

impl Side for Proved {
    fn judge(&self, book: &[u8], certificate: &[u8], work: &mut [u64]) -> Verdict {
        match gearcinder::judge(book, certificate, work) {
            ProvedVerdict::Accepted(Acceptance { line, k, alpha }) => {
                Verdict::Accepted { line, k, alpha }
            }
            ProvedVerdict::Refused(refusal) => Verdict::Refused(refused(refusal)),
        }
    }

    fn covers(&self, book: &[u8], certificate: &[u8], call: &[u8], work: &mut [u64]) -> Coverage {
        match gearcinder::covers(book, certificate, call, work) {
            ProvedCoverage::Covered { index } => Coverage::Covered { index },
            ProvedCoverage::Refused(refusal) => Coverage::Refused(refused(refusal)),
        }
    }

    fn read_book(&self, book: &[u8], out: &mut [u16]) -> Answer {
        answer(gearcinder::read_book(book, out))
    }

    fn read_certificate(&self, book: &[u8], certificate: &[u8], out: &mut [u16]) -> Answer {
        answer(gearcinder::read_certificate(book, certificate, out))
    }

    fn write_book(&self, fields: &[u16], out: &mut [u8]) -> Answer {
        answer(gearcinder::write_book(fields, out))
    }

    fn write_certificate(&self, book: &[u8], fields: &[u16], out: &mut [u8]) -> Answer {
        answer(gearcinder::write_certificate(book, fields, out))
    }
}

fn answer(result: Result<usize, ProvedRefusal>) -> Answer {
    match result {
        Ok(count) => Answer::Filled(count),
        Err(refusal) => Answer::Refused(refused(refusal)),
    }
}

fn refused(refusal: ProvedRefusal) -> Refusal {
    Refusal::new(refusal.number, refusal.place as u8, refusal.a, refusal.b)
}
