//! Repetition: `repeat A to B [ ... ]` stands for what is in the brackets, written
//! once for each number from A to B. In it `#` is the number, `#+1` and `#-1` are
//! those beside it, and `V#` or `c#` are names made with it.

use crate::lexer::{Position, Token};
use crate::TextError;

type Placed = (Token, Position);
type Done<T> = Result<T, TextError>;

/// More words and rounds than this are not written out.
const MOST: usize = 1_000_000;

/// Writes all repetitions out; every word keeps its place in the text.
pub fn repeated(tokens: &[Placed]) -> Done<Vec<Placed>> {
    let mut writer = Writer { found: Vec::new(), count: 0 };
    writer.write_out(tokens, None)?;
    Ok(writer.found)
}

struct Writer {
    found: Vec<Placed>,
    /// The words and the rounds so far.
    count: usize,
}

/// A repetition that begins: its bounds, what is in the brackets, what is behind them.
struct Repetition<'a> {
    first: i64,
    last: i64,
    body: &'a [Placed],
    rest: &'a [Placed],
}

impl Writer {
    fn write_out(&mut self, tokens: &[Placed], number: Option<i64>) -> Done<()> {
        let mut rest = tokens;
        while let [here, after @ ..] = rest {
            self.count_one(here.1)?;
            if begins(here, after) {
                let repetition = repetition(here.1, after, number)?;
                for round in repetition.first..=repetition.last {
                    self.count_one(here.1)?;
                    self.write_out(repetition.body, Some(round))?;
                }
                rest = repetition.rest;
            } else {
                self.found.push((with_number(here, number)?, here.1));
                rest = after;
            }
        }
        Ok(())
    }

    fn count_one(&mut self, position: Position) -> Done<()> {
        self.count += 1;
        match self.count <= MOST {
            true => Ok(()),
            false => {
                let most = format!("at most {MOST} words with all repetitions written out");
                TextError::expected(position, most, "more")
            }
        }
    }
}

/// A symbol may be called `repeat` too: then a sign follows it, or the word `by` of a
/// line.
fn begins((token, _): &Placed, after: &[Placed]) -> bool {
    let follows = match after.first() {
        Some((Token::Word(word), _)) => word != "by",
        Some((Token::Sign(sign), _)) => *sign == "[",
        _ => false,
    };
    *token == Token::Word("repeat".into()) && follows
}

/// What follows the word `repeat`.
fn repetition(at: Position, after: &[Placed], number: Option<i64>) -> Done<Repetition<'_>> {
    let (first, after) = bound(at, after, number)?;
    let after = fixed(at, after, &Token::Word("to".into()))?;
    let (last, after) = bound(at, after, number)?;
    let after = fixed(at, after, &Token::Sign("["))?;
    match closing_bracket(after) {
        Some(end) => Ok(Repetition { first, last, body: &after[..end], rest: &after[end + 1..] }),
        None => TextError::expected(at, "a `repeat` with its `]`", "none up to the end"),
    }
}

fn bound(at: Position, tokens: &[Placed], number: Option<i64>) -> Done<(i64, &[Placed])> {
    let (here, rest) = next(at, tokens);
    let found = with_number(&here, number)?;
    let value = match &found {
        Token::Word(word) => word.parse::<u16>().ok(),
        _ => None,
    };
    match value {
        Some(value) => Ok((i64::from(value), rest)),
        None => TextError::expected(here.1, "a number from 0 to 65535 for `repeat`", found),
    }
}

fn fixed<'a>(at: Position, tokens: &'a [Placed], wanted: &Token) -> Done<&'a [Placed]> {
    let (here, rest) = next(at, tokens);
    match here.0 == *wanted {
        true => Ok(rest),
        false => TextError::expected(here.1, format!("{wanted} for `repeat`"), here.0),
    }
}

/// The next token; inside brackets there may be none left.
fn next(at: Position, tokens: &[Placed]) -> (Placed, &[Placed]) {
    match tokens {
        [here, rest @ ..] => (here.clone(), rest),
        [] => ((Token::Sign("]"), at), tokens),
    }
}

/// Where the bracket closes that opened just before these tokens.
fn closing_bracket(tokens: &[Placed]) -> Option<usize> {
    let mut open = 1;
    tokens.iter().position(|(token, _)| {
        match token {
            Token::Sign("[") => open += 1,
            Token::Sign("]") => open -= 1,
            _ => (),
        }
        open == 0
    })
}

/// Puts the number for `#` in a word.
fn with_number((token, position): &Placed, number: Option<i64>) -> Done<Token> {
    let Token::Word(word) = token else { return Ok(token.clone()) };
    let Some((before, after)) = word.split_once('#') else { return Ok(token.clone()) };
    let Some(number) = number else {
        return TextError::expected(*position, "`#` only in a `repeat`", token);
    };
    let offset = if after.is_empty() { Some(0) } else { after.parse::<i64>().ok() };
    match offset.and_then(|offset| number.checked_add(offset)) {
        Some(number) if number >= 0 => Ok(Token::Word(format!("{before}{number}"))),
        _ => {
            let wanted = "`#`, `#+1` or `#-1`, and no number below 0";
            TextError::expected(*position, wanted, format!("{token} where `#` is {number}"))
        }
    }
}
