//! What the tool says of itself.

use text::shell::Failure;

/// A command, what it is given, and what it does.
struct Command {
    name: &'static str,
    arguments: &'static str,
    does: &'static str,
}

const COMMANDS: [Command; 12] = [
    Command { name: "pack-book", arguments: "[TEXT]", does: "packs the text of a book" },
    Command {
        name: "pack-certificate",
        arguments: "BOOK [TEXT]",
        does: "packs the text of a certificate of that book",
    },
    Command {
        name: "pack-call",
        arguments: "BOOK [TEXT]",
        does: "packs the text of a call of that book",
    },
    Command {
        name: "print-book",
        arguments: "[--names TEXT] [BOOK]",
        does: "prints a book as text",
    },
    Command {
        name: "print-certificate",
        arguments: "[--names TEXT] BOOK [CERTIFICATE]",
        does: "prints a certificate as text",
    },
    Command {
        name: "print-call",
        arguments: "[--names TEXT] BOOK [CALL]",
        does: "prints a call as text",
    },
    Command {
        name: "frame",
        arguments: "BOOK [CERTIFICATE]",
        does: "makes the input of the program `judge`",
    },
    Command {
        name: "judge",
        arguments: "BOOK CERTIFICATE",
        does: "asks the proved judge: status 0 accepted, 1 refused, 2 not asked",
    },
    Command {
        name: "covers",
        arguments: "BOOK CERTIFICATE (CALL | --term TERM)",
        does: "asks whether the call is in the accepted family: status 0 yes, 1 no, 2 not asked",
    },
    Command {
        name: "pack-vectors",
        arguments: "VECTORS OUTPUT TEXT...",
        does: "packs test vectors into the file VECTORS, and what they must print into OUTPUT",
    },
    Command {
        name: "input-of",
        arguments: "NAME TEXT...",
        does: "makes an input of the program `judge` of one vector",
    },
    Command { name: "help", arguments: "[COMMAND]", does: "prints this, or one command's lines" },
];

const NOTES: &str = "
BOOK, CERTIFICATE and CALL are packed files, or text if the name ends in `.txt`.
A hyphen is standard input, and so is a last file that is left out.
The result goes to standard output. `--names` takes the symbols' names from a text.
The status is 0 if all is well, 1 if a text or a file is refused, 2 if the command
is not understood, a file can't be read, or a write fails.
`judge` and `covers` run the program gearcinder-judge, which is built beside this one;
docs/TEXT.md has it all.
";

impl Command {
    fn lines(&self) -> String {
        format!("gearcinder-text {} {}\n    {}\n", self.name, self.arguments, self.does)
    }
}

fn named(name: &str) -> Option<&'static Command> {
    COMMANDS.iter().find(|command| command.name == name)
}

/// The usage of all commands.
fn usage() -> String {
    let lines: String = COMMANDS.iter().map(Command::lines).collect();
    format!("{lines}gearcinder-text --version\n{NOTES}")
}

/// The help for all commands, or for one.
pub fn help(command: Option<&str>) -> Result<String, Failure> {
    match command {
        None => Ok(usage()),
        Some(name) => match named(name) {
            Some(command) => Ok(format!("{}{NOTES}", command.lines())),
            None => Err(misused(&[name])),
        },
    }
}

/// Words that make no command: the usage, after what is wrong with them.
pub fn misused(words: &[&str]) -> Failure {
    let told = match words {
        [] => format!("a command is missing\n{}", usage()),
        [name, ..] => match named(name) {
            None => format!("there is no command `{name}`\n{}", usage()),
            Some(command) => {
                format!("`{name}` is used otherwise\n{}{NOTES}", command.lines())
            }
        },
    };
    Failure::undone(told.trim_end())
}
