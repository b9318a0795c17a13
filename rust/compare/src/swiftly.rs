//! The swift judge, in the words of the second implementation.

use second::{Refusal, Verdict};
use swift::{Judge, Verdict as SwiftVerdict};

/// One judge for all inputs, so that nothing left by one may matter to the next.
#[derive(Default)]
pub struct Swift {
    judge: Judge,
}

impl Swift {
    pub fn judge(&mut self, book: &[u8], certificate: &[u8], work: &mut [u64]) -> Verdict {
        match self.judge.judge(book, certificate, work) {
            SwiftVerdict::Accepted { line, k, alpha } => Verdict::Accepted { line, k, alpha },
            SwiftVerdict::Refused(swift::Refusal { number, w, a, b }) => {
                Verdict::Refused(Refusal { number, w, a, b })
            }
        }
    }
}
