//! Calls, asked of both sides.

use crate::judging::work_length;
use crate::lent::{noise, Lent};
use crate::proved::Side;
use crate::Compared;
use generate::calls::Asking;
use generate::hex::hex;
use generate::random::Random;
use second::Coverage;

/// Asks both, over a work table full of noise. The answer is the second's.
pub fn ask_both(side: &impl Side, asking: &Asking, random: &mut Random) -> Compared<Coverage> {
    let Asking { book, certificate, call, .. } = asking;
    let before: Vec<u64> = noise(work_length(random), random);
    let mut work = before.clone();
    let expected = second::covers(book, certificate, call, &mut work);
    one_asking(side, asking, &before, (expected, &work), random).map_err(|fault| {
        let (book, certificate, call) = (hex(book), hex(certificate), hex(call));
        let (made, length) = (asking.made, before.len());
        format!("covers, {made:?}, {length} work numbers\nbook {book}\ncertificate {certificate}\ncall {call}\n{fault}")
    })?;
    Ok(expected)
}

/// Asks once, and compares the answer and all lent memory.
fn one_asking(
    side: &impl Side,
    Asking { book, certificate, call, .. }: &Asking,
    before: &[u64],
    (expected, expected_work): (Coverage, &[u64]),
    random: &mut Random,
) -> Compared<()> {
    let files = [book, certificate, call].map(|file| Lent::new(file, random));
    let mut work = Lent::new(before, random);
    let [lent_book, lent_certificate, lent_call] = &files;
    let found = side.covers(
        lent_book.content(),
        lent_certificate.content(),
        lent_call.content(),
        work.lend(),
    );
    let kept = files.iter().zip([book, certificate, call]).all(|(lent, file)| lent.holds(file));
    if found != expected {
        Err(format!("found {found:?}\nexpected {expected:?}"))
    } else if !work.holds(expected_work) {
        Err("the work table or its guards differ".to_string())
    } else if !kept {
        Err("a file, the call or its guards changed".to_string())
    } else {
        Ok(())
    }
}
