//! The certificate.

use super::term::term;
use crate::bits::{Bits, Fault};
use crate::node::pair;
use crate::store::{Closing, Entries, Entry, Kind, Line, Proof, Span, Store, Use};

/// "line count 8; lines; closing"
pub fn decode_certificate(certificate: &[u8], store: &mut Store) -> Result<Closing, Fault> {
    let mut bits = Bits::new(certificate);
    let lines = bits.take(8)?;
    for number in 0..lines {
        let line = line(&mut bits, store, number)?;
        store.lines.push(line);
    }
    let closing = closing(&mut bits, store, lines)?;
    bits.close()?;
    Ok(closing)
}

/// "kind 1 bit (0 unfold, 1 descent); left; a bit that says whether a right term follows
/// (0 is the empty mark); the right term"
fn line(bits: &mut Bits, store: &mut Store, number: u32) -> Result<Line, Fault> {
    let kind = bits.take(1)?;
    let left = term::<false>(bits, store)?;
    let right = match bits.take(1)? {
        0 => Span::default(),
        _ => term::<false>(bits, store)?,
    };
    let proof = match kind {
        0 => unfold(bits, store, number)?,
        _ => descent(bits, store, number)?,
    };
    Ok(Line { left, right, proof })
}

/// "rule 8, i 4, filling, a use for each j < i, then, if i is not 0, one bit, and a use
/// if it is 1"
fn unfold(bits: &mut Bits, store: &mut Store, number: u32) -> Result<Proof, Fault> {
    let rule = bits.take_if(8, |rule| (rule as usize) < store.rules.len())?;
    let calls = store.rules[rule as usize].calls;
    // "If m = 0 then i = 0; else i is 1 to m."
    let stop = bits.take_if(4, |stop| calls.min(1) <= stop && stop <= calls)?;
    let filling = filling(bits, store)?;
    let first_use = store.uses.len() as u32;
    let mut uses = stop.saturating_sub(1);
    for _ in 0..uses {
        one_use(bits, store, number)?;
    }
    if stop != 0 && bits.take(1)? == 1 {
        one_use(bits, store, number)?;
        uses += 1;
    }
    let (kind, rule) = (Kind::Unfold { stop }, rule as u8);
    Ok(Proof { kind, rule, filling, first_use, uses })
}

/// "use, rule 8 (one of exactly one call), filling"
fn descent(bits: &mut Bits, store: &mut Store, number: u32) -> Result<Proof, Fault> {
    let first_use = store.uses.len() as u32;
    one_use(bits, store, number)?;
    let one_call = |rule: u32| store.rules.get(rule as usize).is_some_and(|rule| rule.calls == 1);
    let rule = bits.take_if(8, one_call)? as u8;
    let filling = filling(bits, store)?;
    Ok(Proof { kind: Kind::Descent, rule, filling, first_use, uses: 1 })
}

/// "line 8 (earlier than this line), i 12, j 12, filling"
fn one_use(bits: &mut Bits, store: &mut Store, number: u32) -> Result<(), Fault> {
    let line = bits.take_if(8, |line| line < number)? as u8;
    let i = bits.take(12)?;
    let j = bits.take(12)?;
    let filling = filling(bits, store)?;
    store.uses.push(Use { line, pair: pair(u64::from(i), u64::from(j)), filling });
    Ok(())
}

/// "count 7 (0 to 64), then variable 6, strictly rising, and a term"
fn filling(bits: &mut Bits, store: &mut Store) -> Result<Entries, Fault> {
    let count = bits.take_if(7, |count| count <= 64)?;
    let first = store.entries.len() as u32;
    let mut lowest = 0;
    for _ in 0..count {
        let variable = bits.take_if(6, |variable| lowest <= variable)?;
        lowest = variable + 1;
        let term = term::<false>(bits, store)?;
        store.entries.push(Entry { variable: variable as u8, term });
    }
    Ok(Entries { first, count })
}

/// "line 8 (below the line count), k 12, α 12 (α + k at most 4,095), filling"
fn closing(bits: &mut Bits, store: &mut Store, lines: u32) -> Result<Closing, Fault> {
    let line = bits.take_if(8, |line| line < lines)? as u8;
    let k = bits.take(12)?;
    let alpha = bits.take_if(12, |alpha| alpha + k <= 4_095)?;
    let filling = filling(bits, store)?;
    Ok(Closing { line, k, alpha, filling })
}
