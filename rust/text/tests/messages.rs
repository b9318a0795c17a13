//! What is said of a wrong text, word for word.

use text::*;

const BOOK: &str = include_str!("../examples/while.book.txt");
const SYMBOLS: &str = "symbols gt/2, s/1, 0/0, add/3, while/2.";
const CLOSING: &str = "closing line 0 k 0 alpha 0 {}";

fn book_error(text: &str) -> String {
    pack_book_text(text).unwrap_err().to_string()
}

/// Of a certificate that stands below its symbol list.
fn certificate_error(text: &str) -> String {
    let book = pack_book_text(BOOK).unwrap();
    let text = format!("{SYMBOLS}\n{text}");
    pack_certificate_text(&book, &text).unwrap_err().to_string()
}

#[test]
fn of_symbol_tables() {
    let cases = [
        ("gt(X).", "1:1: expected `symbols`, found `gt`"),
        ("", "1:1: expected `symbols`, found the end"),
        ("symbols a/0 a.", "1:13: expected `,` or `.`, found `a`"),
        ("symbols a/0, .", "1:14: expected a symbol's name, found `.`"),
        ("symbols a.", "1:10: expected `/`, found `.`"),
        ("symbols a/b.", "1:11: expected an arity from 0 to 8, found `b`"),
        ("symbols a/70000.", "1:11: expected an arity from 0 to 8, found `70000`"),
        (
            "symbols a/0, a/1.",
            "1:14: expected a symbol's name, found `a`, which is in the table already",
        ),
        (
            "symbols empty/0.",
            "1:9: expected a symbol's name, found `empty`, which is taken for the empty mark",
        ),
        (
            "symbols A/0.",
            "1:9: expected a symbol's name, found `A`, which begins with a capital letter",
        ),
        ("symbols a/0. a ; a.", "1:16: expected a word or a sign of the form, found `;`"),
        ("% é\nsymbols é/0.", "2:9: expected a word or a sign of the form, found `é`"),
    ];
    for (text, message) in cases {
        assert_eq!(book_error(text), message);
    }
}

#[test]
fn of_rules_and_terms() {
    let cases = [
        ("symbols a/0.\na", "2:2: expected `:-` or `.`, found the end"),
        ("symbols a/0.\na\n", "3:1: expected `:-` or `.`, found the end"),
        ("symbols a/0.\na\na.", "3:1: expected `:-` or `.`, found `a`"),
        ("symbols a/0.\na :- a\na.", "3:1: expected `,` or `.`, found `a`"),
        ("symbols a/0.\n(a).", "2:1: expected a rule, found `(`"),
        ("symbols a/0.\na :- .", "2:6: expected a term, found `.`"),
        ("symbols a/0. b.", "1:14: expected a symbol of the table or a variable, found `b`"),
        ("symbols gt/2. gt(X).", "1:19: expected `,` (`gt` has 2 arguments), found `)`"),
        ("symbols gt/2. gt(X,X,X).", "1:21: expected `)` (`gt` has 2 arguments), found `,`"),
        ("symbols s/1. s(X,X).", "1:17: expected `)` (`s` has 1 argument), found `,`"),
        ("symbols gt/2. gt.", "1:17: expected `(` (`gt` has 2 arguments), found `.`"),
        ("symbols a/0. a(X).", "1:15: expected no argument of `a/0`, found `(`"),
        ("symbols a/0. a^{0,1}.", "1:14: expected a symbol of arity 1 before `^`, found `a/0`"),
        ("symbols s/1. s^{0;1}(X).", "1:18: expected a word or a sign of the form, found `;`"),
        ("symbols s/1. s^{0,}(X).", "1:19: expected a number from 0 to 4095, found `}`"),
        ("symbols s/1. s^{0,99999}(X).", "1:19: expected a number from 0 to 4095, found `99999`"),
    ];
    for (text, message) in cases {
        assert_eq!(book_error(text), message);
    }
    let deep = format!("symbols s/1, r/1, 0/0. {}0{}.", "s(r(".repeat(5_000), "))".repeat(5_000));
    assert!(book_error(&deep).ends_with("expected a term at most 2000 deep, found `s`"));
}

#[test]
fn of_lines_and_closings() {
    let cases = [
        ("foo", "2:1: expected `line` or `closing`, found `foo`"),
        ("", "2:1: expected `line` or `closing`, found the end"),
        ("line 1:", "2:6: expected `0`, the line's own number, found `1`"),
        ("line 0: fold", "2:9: expected `unfold` or `descent`, found `fold`"),
        ("line 0: unfold 0 - 0", "2:18: expected a word or a sign of the form, found `-`"),
        ("line 0: unfold 0 = 0", "2:18: expected `->`, found `=`"),
        (
            "line 0: unfold 0 -> by",
            "2:21: expected a symbol of the table or a variable, found `by`",
        ),
        ("line 0: unfold 0 -> {}", "2:21: expected a term or `empty`, found `{`"),
        (
            "line 0: unfold 0 -> 0 by rule 4 stop 2 {} here",
            "2:43: expected `use`, one for each call before call 2, found `here`",
        ),
        (
            "line 0: unfold 0 -> 0 by rule 4 stop 1 {} use",
            "2:43: expected `here` or `through`, found `use`",
        ),
        (
            "closing line 0 k 0 alpha 0 { x = 0 }",
            "2:30: expected a variable, A to Z or V0 to V63, found `x`",
        ),
        ("closing line 0 k 0 alpha 0 { X = 0 Y = 0 }", "2:36: expected `,` or `}`, found `Y`"),
        ("closing line 0 k 0 alpha 0 {} 0", "2:31: expected the end behind the closing, found `0`"),
        ("closing line 0 k x alpha 0 {}", "2:18: expected a number from 0 to 4095, found `x`"),
        ("closing line x k 0 alpha 0 {}", "2:14: expected the number of a line above, found `x`"),
    ];
    for (text, message) in cases {
        assert_eq!(certificate_error(text), message);
    }
}

#[test]
fn of_repetitions() {
    let cases = [
        ("repeat x to 2 [ a. ]", "2:8: expected a number from 0 to 65535 for `repeat`, found `x`"),
        ("repeat [ a. ]", "2:8: expected a number from 0 to 65535 for `repeat`, found `[`"),
        ("repeat 1 2 [ a. ]", "2:10: expected `to` for `repeat`, found `2`"),
        (
            "repeat 1 to 65536 [ ]",
            "2:13: expected a number from 0 to 65535 for `repeat`, found `65536`",
        ),
        ("repeat 1 to 2 a. ]", "2:15: expected `[` for `repeat`, found `a`"),
        ("repeat 1 to", "2:12: expected a number from 0 to 65535 for `repeat`, found the end"),
        ("repeat 1 to 2 [ a.", "2:1: expected a `repeat` with its `]`, found none up to the end"),
        ("a#.", "2:1: expected `#` only in a `repeat`, found `a#`"),
        (
            "repeat 0 to 1 [ c#-1. ]",
            "2:17: expected `#`, `#+1` or `#-1`, and no number below 0, found `c#-1` where `#` is 0",
        ),
    ];
    for (text, message) in cases {
        assert_eq!(book_error(&format!("symbols a/0.\n{text}")), message);
    }
    let much = "expected at most 1000000 words with all repetitions written out, found more";
    for body in ["a.", ""] {
        let inner = format!("repeat 1 to 65535 [ {body} ]");
        let endless = format!("symbols a/0. repeat 1 to 65535 [ {inner} ]");
        assert!(book_error(&endless).ends_with(much));
    }
}

#[test]
fn of_what_the_writer_refuses_in_a_book() {
    let cases = [
        (
            "s(s(0)).",
            "2:3: expected one power, or another symbol than the one directly above, found `s` \
             (refuse 5 0 11 0)",
        ),
        ("s^{0,0}(0).", "2:6: expected b above 0, since a is 0, found `0` (refuse 5 0 9 0)"),
        ("s^{1,0}(0).", "2:4: expected a = 0 in a book, found `1` (refuse 4 0 8 0)"),
        ("s^{0,5000}(0).", "2:6: expected a number from 0 to 4095, found `5000` (refuse 4 0 9 0)"),
        ("s(V64).", "2:3: expected a variable from V0 to V63, found `V64` (refuse 4 0 11 0)"),
        (
            "X.",
            "2:1: expected a symbol, since a head or a call is no variable, found `X` \
             (refuse 4 0 6 0)",
        ),
        (
            "0 :- 0, 0, 0, 0, 0, 0, 0, 0, 0.",
            "2:1: expected at most 8 calls, found 9 (refuse 4 0 5 0)",
        ),
        (
            "repeat 1 to 128 [ s(r( ] 0 repeat 1 to 128 [ )) ].",
            "2:26: expected at most 256 nodes in a term, found a 257th (refuse 6 0 1030 0)",
        ),
        ("repeat 1 to 256 [ 0. ]", "2:19: expected at most 255 rules, found 256 (refuse 4 0 4 0)"),
    ];
    for (text, message) in cases {
        assert_eq!(book_error(&format!("symbols s/1, 0/0, r/1.\n{text}")), message);
    }
    let arity = "1:16: expected an arity from 0 to 8, found `9` (refuse 4 0 2 0)";
    assert_eq!(book_error("symbols s/1, 0/9."), arity);
    let many = "1:1: expected at most 255 symbols, found 256 (refuse 4 0 0 0)";
    assert_eq!(book_error("symbols a/0 repeat 1 to 255 [ , c#/0 ]."), many);
}

#[test]
fn of_what_the_writer_refuses_in_a_certificate() {
    let unfold = "line 0: unfold 0 -> empty by rule";
    let cases = [
        (
            CLOSING.to_string(),
            "2:14: expected the number of a line above, found `0` (refuse 4 1 1 0)",
        ),
        (
            format!("{unfold} 9 stop 0 {{}}\n{CLOSING}"),
            "2:35: expected the number of a rule of the book, found `9` (refuse 4 1 5 0)",
        ),
        (
            format!("{unfold} 1 stop 0 {{}}\n{CLOSING}"),
            "2:42: expected 0 for a rule without calls, else a number from 1 to that of its calls, \
             found `0` (refuse 4 1 6 0)",
        ),
        (
            format!("{unfold} 0 stop 0 {{ Y = 0, X = 0 }}\n{CLOSING}"),
            "2:53: expected a variable from V0 to V63, above the one before it, found `X` \
             (refuse 4 1 11 0)",
        ),
        (
            format!("{unfold} 0 stop 0 {{}}\nclosing line 0 k 4095 alpha 1 {{}}"),
            "3:29: expected a number from 0 to 4095, with k at most 4095, found `1` \
             (refuse 4 1 10 0)",
        ),
        (
            format!("line 0: descent 0 -> empty by base 0 (0,0) {{}} rule 1 {{}}\n{CLOSING}"),
            "2:36: expected the number of an earlier line, found `0` (refuse 4 1 5 0)",
        ),
        (
            format!(
                "{unfold} 0 stop 0 {{}}
                line 1: descent 0 -> empty by base 0 (0,0) {{}} rule 4 {{}}\n{CLOSING}"
            ),
            "3:68: expected the number of a rule of the book with exactly one call, found `4` \
             (refuse 4 1 16 0)",
        ),
    ];
    for (text, message) in cases {
        assert_eq!(certificate_error(&text), message);
    }
}

#[test]
fn of_the_book_while_a_certificate_is_packed() {
    let error = pack_certificate_text(&[0], "symbols. closing line 0 k 0 alpha 0 {}");
    let message = "in the book, at bit 8: the file ends before the field that begins there does \
                   (refuse 3 0 8 0)";
    assert_eq!(error.unwrap_err().to_string(), message);
}

/// The table of a certificate is held to the book's: by arity if the book is packed, by
/// name as well if its text is known.
#[test]
fn of_symbols_that_are_not_the_books() {
    let book = pack_book_text(BOOK).unwrap();
    let names = names_in(BOOK).unwrap();
    let error = |names: Option<&Symbols>, table: &str| {
        let text = format!("{table}\nline 0: unfold 0 -> empty by rule 0 stop 0 {{}}\n{CLOSING}");
        pack_certificate_named(&book, names, &text).map_err(|error| error.to_string())
    };
    let wrong = |message: &str| Err(message.to_string());
    assert!(error(None, SYMBOLS).is_ok());
    assert!(error(Some(&names), SYMBOLS).is_ok());
    // Another order, another arity.
    let order = "symbols s/1, gt/2, 0/0, add/3, while/2.";
    let message = "1:9: expected a symbol of arity 2, symbol 0 of the book, found `s/1`";
    assert_eq!(error(None, order), wrong(message));
    let message = "1:9: expected `gt/2`, symbol 0 of the book, found `s/1`";
    assert_eq!(error(Some(&names), order), wrong(message));
    let arity = "symbols gt/2, s/1, 0/0, add/2, while/2.";
    let message = "1:25: expected `add/3`, symbol 3 of the book, found `add/2`";
    assert_eq!(error(Some(&names), arity), wrong(message));
    // The same arities under other names: a packed book has none.
    let renamed = "symbols while/2, s/1, 0/0, add/3, gt/2.";
    assert!(error(None, renamed).is_ok());
    let message = "1:9: expected `gt/2`, symbol 0 of the book, found `while/2`";
    assert_eq!(error(Some(&names), renamed), wrong(message));
    // One too many, one too few.
    let many = "symbols gt/2, s/1, 0/0, add/3, while/2, a/0.";
    let message = "1:41: expected `.` after the 5 symbols of the book, found `a/0`";
    assert_eq!(error(None, many), wrong(message));
    let few = "symbols gt/2, s/1, 0/0, add/3.";
    let message = "1:30: expected a symbol of arity 2, symbol 4 of the book, found `.`";
    assert_eq!(error(None, few), wrong(message));
    let message = "1:30: expected `while/2`, symbol 4 of the book, found `.`";
    assert_eq!(error(Some(&names), few), wrong(message));
    let others = names_in("symbols a/0.").unwrap();
    let message =
        "expected names for the arities of `symbols f0/2, u1/1, c2/0, f3/3, f4/2.`, found \
                   `symbols a/0.`";
    assert_eq!(error(Some(&others), SYMBOLS), wrong(message));
}
