//! Reads standard input as the program of the document does and prints the
//! second judge's line.

use std::io::{Read, Write};

fn main() -> std::io::Result<()> {
    let mut input = Vec::new();
    // One byte more than the limit is enough to know that the limit is passed.
    std::io::stdin().lock().take(49_155).read_to_end(&mut input)?;
    let mut work = vec![0u64; second::judging::WORK_NUMBERS];
    let verdict = second::judge_input(&input, &mut work);
    let mut out = std::io::stdout().lock();
    writeln!(out, "{}", second::verdict_line(&verdict))?;
    out.flush()
}
