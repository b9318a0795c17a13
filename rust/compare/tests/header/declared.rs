//! What a C header declares.

/// Each function, with the names of its parameters.
pub fn declared(header: &str) -> Vec<(String, Vec<String>)> {
    let after_comment = |part: &str| part.rsplit("*/").next().unwrap_or(part).to_string();
    let code: String = header.split("/*").map(after_comment).collect();
    let functions = code.split(';').filter_map(|declaration| declaration.rsplit_once('('));
    functions
        .map(|(name, parameters)| {
            let parameters = parameters.trim_end().trim_end_matches(')');
            (last_name(name), parameters.split(',').map(last_name).collect())
        })
        .collect()
}

/// The last name of a declaration, an array's length left out.
fn last_name(declaration: &str) -> String {
    let named = declaration.split('[').next().unwrap_or(declaration).trim_end();
    named.rsplit(|c: char| !c.is_alphanumeric() && c != '_').next().unwrap_or("").to_string()
}

/// A macro for each function: its call by the names of its parameters.
pub fn calls(header: &str) -> String {
    let call = |(name, parameters): (String, Vec<String>)| {
        format!("#define CALL_{name} {name}({})\n", parameters.join(", "))
    };
    declared(header).into_iter().map(call).collect()
}

/// The number that a name stands for.
pub fn defined(header: &str, name: &str) -> Option<usize> {
    let mut lines = header.lines().map(|line| line.split(' ').collect::<Vec<&str>>());
    lines.find_map(|words| match words[..] {
        ["#define", defined, number] if defined == name => number.parse().ok(),
        _ => None,
    })
}
