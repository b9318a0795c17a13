//! The rule book.

use super::term::term;
use crate::bits::{Bits, Fault};
use crate::store::{Rule, Store};

/// "symbol count 8 bits; each arity 4; rule count 8; each rule"
pub fn decode_book(book: &[u8], store: &mut Store) -> Result<(), Fault> {
    let mut bits = Bits::new(book);
    let symbols = bits.take(8)?;
    for symbol in 0..symbols {
        let arity = bits.take_if(4, |arity| arity <= 8)?;
        store.set_arity(symbol, arity as u8);
    }
    for _ in 0..bits.take(8)? {
        rule(&mut bits, store)?;
    }
    bits.close()
}

/// "call count 4 (0 to 8), head, calls"
fn rule(bits: &mut Bits, store: &mut Store) -> Result<(), Fault> {
    let calls = bits.take_if(4, |calls| calls <= 8)?;
    store.rules.push(Rule { head: store.calls.len() as u32, calls });
    for _ in 0..=calls {
        let call = term::<true>(bits, store)?;
        store.calls.push(call);
    }
    Ok(())
}
