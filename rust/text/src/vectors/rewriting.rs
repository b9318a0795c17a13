//! Changes of a named text before it is packed.

use crate::errors::expected_found;

/// `where OLD is NEW and OLD is NEW ...`: what is replaced stands exactly once in the
/// text. After `wherever` it may stand there more often.
pub fn rewritten(text: &str, words: &[&str]) -> Result<String, String> {
    let (changes, once) = match words {
        [] => return Ok(text.to_string()),
        ["where", changes @ ..] => (changes, true),
        ["wherever", changes @ ..] => (changes, false),
        _ => return Err(expected_found("`where OLD is NEW`", format!("`{}`", words.join(" ")))),
    };
    let mut text = text.to_string();
    for change in changes.split(|word| *word == "and") {
        let mut sides = change.split(|word| *word == "is");
        let (old, new) = match (sides.next(), sides.next(), sides.next()) {
            (Some(old), Some(new), None) => (old.join(" "), new.join(" ")),
            _ => return Err(expected_found("`OLD is NEW`", format!("`{}`", change.join(" ")))),
        };
        match text.matches(&old).count() {
            count if count == 1 || count > 1 && !once => text = text.replace(&old, &new),
            count => {
                let (expected, times) =
                    (format!("`{old}` once in the text"), format!("it {count} times"));
                return Err(expected_found(expected, times));
            }
        }
    }
    Ok(text)
}
