//! Holds `library.rs` to the header, which is put into Rust and has to come out as `library.rs` has it, word for word.

const HEADER: &str = include_str!("../../include/jirmeklo.h");
const LIBRARY: &str = include_str!("library.rs");

/// What stands before each struct.
const ATTRIBUTES: &str = "#[repr(C)] #[derive(Clone, Copy, PartialEq, Eq, Debug)]";

/// What `library.rs` has otherwise than the header, where it begins.
pub fn difference() -> Option<String> {
    difference_from(HEADER)
}

fn difference_from(header: &str) -> Option<String> {
    let (there, here) = (words(&in_rust(header)), words(LIBRARY));
    let at = (0..there.len().max(here.len())).find(|&i| there.get(i) != here.get(i))?;
    let shown = |words: &[String]| {
        words[at.saturating_sub(8).min(words.len())..].iter().take(16).cloned().collect::<Vec<_>>().join(" ")
    };
    Some(format!("the header declares .. {} .., library.rs .. {} ..", shown(&there), shown(&here)))
}

/// Names and signs, without comments and commas.
fn words(rust: &str) -> Vec<String> {
    let mut found = vec![String::new()];
    for line in rust.lines().filter_map(|line| line.split("//").next()) {
        for c in line.chars().chain([' ']) {
            if is_of_name(c) {
                found.last_mut().expect("never empty").push(c);
            } else {
                found.extend([c.to_string(), String::new()]);
            }
        }
    }
    found.retain(|word| !["", " ", ","].contains(&word.as_str()));
    found
}

fn is_of_name(c: char) -> bool {
    c.is_ascii_alphanumeric() || c == '_'
}

/// The header's structs and then its functions, declared in Rust.
fn in_rust(header: &str) -> String {
    let plain = without_directives(&without_comments(header));
    let (mut structs, mut functions) = (String::new(), String::new());
    let mut rest = plain.as_str();
    while let Some((head, inside, after)) = declaration(rest) {
        rest = after;
        if head.starts_with("struct") && inside.contains(';') {
            let fields: String = inside.split(';').map(fields).collect();
            structs += &format!("{ATTRIBUTES} pub struct {} {{ {fields} }}", type_in_rust(head));
        } else {
            let arguments: Vec<String> = inside.split(',').map(argument).collect();
            let (result, name) = type_and_name(head);
            functions += &format!("pub fn {name}({}) -> {};", arguments.join(", "), type_in_rust(result));
        }
    }
    format!("{structs} extern \"C\" {{ {functions} }}")
}

fn without_comments(c: &str) -> String {
    let parts = c.split("/*").enumerate();
    parts.map(|(i, part)| if i == 0 { part } else { part.split_once("*/").map_or("", |p| p.1) }).collect()
}

/// On one line, without what is for the preprocessor, or for C++ alone.
fn without_directives(c: &str) -> String {
    let mut for_cpp = false;
    let mut plain = Vec::new();
    for line in c.lines() {
        for_cpp = line.starts_with("#ifdef __cplusplus") || (for_cpp && !line.starts_with("#endif"));
        if !for_cpp && !line.starts_with('#') {
            plain.extend(line.split_whitespace());
        }
    }
    plain.join(" ")
}

/// What stands before the next bracket, in it, and after it and its semicolon.
fn declaration(c: &str) -> Option<(&str, &str, &str)> {
    let (head, rest) = c.split_once(['(', '{'])?;
    let (inside, after) = rest.split_once([')', '}'])?;
    Some((head.trim(), inside.trim(), after.trim_start_matches([' ', ';'])))
}

/// `uint32_t first, second`, or nothing.
fn fields(c: &str) -> String {
    let mut names = c.trim().split(", ");
    let (kind, first) = type_and_name(names.next().unwrap_or(""));
    let all = std::iter::once(first).chain(names).filter(|name| !name.is_empty());
    all.map(|name| format!("pub {name}: {}, ", type_in_rust(kind))).collect()
}

fn argument(c: &str) -> String {
    let (kind, name) = type_and_name(c.trim());
    format!("{name}: {}", type_in_rust(kind))
}

fn type_and_name(c: &str) -> (&str, &str) {
    let (kind, name) = c.split_at(c.rfind(|c| !is_of_name(c)).map_or(0, |i| i + 1));
    (kind.trim(), name)
}

/// A struct `jirmeklo_name` is `Name` in Rust. Another type is left, and found to differ.
fn type_in_rust(c: &str) -> String {
    let known = match c {
        "uint32_t" => "u32",
        "size_t" => "usize",
        "uint32_t *" => "*mut u32",
        "const uint32_t *" => "*const u32",
        _ => c,
    };
    match known.strip_prefix("struct jirmeklo_") {
        Some(name) => name[..1].to_uppercase() + &name[1..],
        None => known.to_string(),
    }
}

/// What is changed in the header, to what, and what is then wrong.
const FAULTS: [(&str, &str, &str); 18] = [
    ("jirmeklo_sub(", "jirmeklo_subtract(", "another name"),
    (
        "jirmeklo_fma(uint32_t x, uint32_t y, uint32_t z)",
        "jirmeklo_fma(uint32_t x, uint32_t y)",
        "an argument less",
    ),
    ("size_t words, uint32_t x)", "uint32_t x, size_t words)", "arguments in each other's place"),
    ("jirmeklo_read(const uint32_t *", "jirmeklo_read(uint32_t *", "an array that is written"),
    ("const uint32_t *second, size_t", "uint32_t *second, size_t", "a second array that is written"),
    ("const uint32_t *old, size_t", "uint32_t *old, size_t", "an old array that is written"),
    ("struct jirmeklo_pair jirmeklo_sum", "struct jirmeklo_reading jirmeklo_sum", "another result"),
    ("uint32_t *words, size_t count", "uint32_t *words, uint32_t count", "an argument of another type"),
    ("overflow, underflow,", "underflow, overflow,", "fields in each other's place"),
    ("uint32_t refusal, lines, first", "uint32_t refusal, first", "a field less"),
    ("bool invalid", "uint32_t invalid", "fields of another type"),
    ("struct jirmeklo_step jirmeklo_mul", "uint32_t jirmeklo_mul", "a step without its mark"),
    ("uint32_t result, mark;", "uint32_t mark, result;", "a mark before the result"),
    ("uint32_t result, mark;", "uint32_t result; bool mark;", "a mark of another type"),
    (
        "uint32_t refusal, line;\n    bool right;",
        "uint32_t refusal; bool right; uint32_t line;",
        "right before the line",
    ),
    ("uint32_t refusal, line;", "uint32_t line, refusal;", "the line before the refusal"),
    ("bool right;", "uint32_t right;", "right of another type"),
    ("const uint32_t *lines, size_t", "uint32_t *lines, size_t", "lines that are written"),
];

/// The faults that are found, all of them, or one that is not.
pub fn tried() -> Result<String, String> {
    for (old, new, what) in FAULTS {
        let faulty = HEADER.replacen(old, new, 1);
        if faulty == HEADER || difference_from(&faulty).is_none() {
            return Err(format!("in the header, {what}"));
        }
    }
    Ok(FAULTS.map(|fault| fault.2).join(", "))
}
