//! A pair at an edge of reading, by all.

use crate::files::perform_both;
use crate::judging::judge_by_three;
use crate::proved::Proved;
use crate::swiftly::Swift;
use crate::Compared;
use generate::edges::Edged;
use generate::random::Random;
use second::Verdict;

/// Judges the pair and reads both of its files. The answer is the second's.
pub fn at_an_edge(edged: &Edged, swift: &mut Swift, random: &mut Random) -> Compared<Verdict> {
    let words = |fault: String| format!("{:?}\n{fault}", edged.edge);
    let verdict = judge_by_three(swift, &edged.book, &edged.certificate, random).map_err(words)?;
    for task in edged.readings() {
        perform_both(&Proved, &task, random).map_err(words)?;
    }
    Ok(verdict)
}
