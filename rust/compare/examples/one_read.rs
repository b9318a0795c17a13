//! The second judge as a wrong program, for the tests: it takes what its first read gets
//! for the whole input.

use std::io::Read;

fn main() -> std::io::Result<()> {
    let mut input = [0; 65_536];
    let length = std::io::stdin().read(&mut input)?;
    let mut work = [0; second::judging::WORK_NUMBERS];
    let verdict = second::judge_input(&input[..length], &mut work);
    println!("{}", second::verdict_line(&verdict));
    Ok(())
}
