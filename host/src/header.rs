//! The exported calls as three texts declare them: the C header, these tests' declarations and the
//! library's own functions.

/// A parameter's kind. In C a lent buffer is a pointer and a length.
#[derive(Clone, Debug, PartialEq, Eq, PartialOrd, Ord)]
pub enum Kind {
    Number,
    State,
    Buffer {
        element: &'static str,
        written: bool,
    },
    /// A pointer before its length was seen.
    Pointer {
        element: &'static str,
        written: bool,
    },
    Length,
}

/// A call with the names and kinds of its parameters in order.
#[derive(Clone, Debug, PartialEq, Eq, PartialOrd, Ord)]
pub struct Declared {
    pub name: String,
    pub parameters: Vec<(String, Kind)>,
}

/// The calls that a text declares, by name: what stands between `before` and a name that starts with
/// `rudderfig_`, and the parameters in the brackets after it, each read by `parameter`.
fn declared(text: &str, before: &str, parameter: fn(&str) -> (String, Kind)) -> Vec<Declared> {
    let mut calls = Vec::new();
    for part in text.split(&format!("{before} rudderfig_")).skip(1) {
        let (name, rest) = part.split_once('(').unwrap();
        let (inside, _) = rest.split_once(')').unwrap();
        let parameters = inside.split(',').map(str::trim);
        calls.push(joined(Declared {
            name: format!("rudderfig_{name}"),
            parameters: parameters
                .filter(|text| !text.is_empty())
                .map(parameter)
                .collect(),
        }));
    }
    calls.sort();
    calls
}

/// Puts each pointer and the length after it together. A length must bear its pointer's name.
fn joined(call: Declared) -> Declared {
    let mut parameters: Vec<(String, Kind)> = Vec::new();
    for (name, kind) in call.parameters {
        match parameters.last_mut() {
            Some((pointer, of)) if kind == Kind::Length && name == format!("{pointer}_len") => {
                if let Kind::Pointer { element, written } = *of {
                    *of = Kind::Buffer { element, written };
                }
            }
            _ => parameters.push((name, kind)),
        }
    }
    Declared { parameters, ..call }
}

fn element(name: &str) -> &'static str {
    match name {
        "uint8_t" | "u8" => "u8",
        "uint16_t" | "u16" => "u16",
        "uint32_t" | "u32" => "u32",
        other => panic!("a buffer of {other}"),
    }
}

fn without_comments(text: &str) -> String {
    let mut parts = text.split("/*");
    let first = parts.next().unwrap().to_string();
    parts.fold(first, |left, part| left + part.split_once("*/").unwrap().1)
}

/// The functions that the header declares; its inline functions take an answer and are no calls.
pub fn header_calls(header: &str) -> Vec<Declared> {
    let parameter = |text: &str| {
        let split = text
            .rfind(|c: char| !c.is_alphanumeric() && c != '_')
            .unwrap();
        let (kind, name) = text.split_at(split + 1);
        let kind = match kind.trim() {
            "uint64_t" => Kind::Number,
            "rudderfig_length" => Kind::Length,
            "struct rudderfig_parity *" => Kind::State,
            kind => {
                let of = kind.strip_suffix('*').expect(kind).trim();
                Kind::Pointer {
                    element: element(of.trim_start_matches("const ")),
                    written: !of.starts_with("const "),
                }
            }
        };
        (name.to_string(), kind)
    };
    let text = without_comments(header);
    let lines: Vec<&str> = text
        .lines()
        .filter(|line| !line.starts_with("static inline") && !line.starts_with("typedef"))
        .collect();
    declared(&lines.join("\n"), "uint64_t", parameter)
}

/// The functions that the tests declare.
pub fn test_calls(text: &str) -> Vec<Declared> {
    let parameter = |text: &str| {
        let (name, kind) = text.split_once(": ").unwrap();
        let kind = match kind {
            "u64" => Kind::Number,
            "usize" => Kind::Length,
            "*mut Parity" => Kind::State,
            kind => Kind::Pointer {
                element: element(kind.rsplit(' ').next().unwrap()),
                written: kind.starts_with("*mut "),
            },
        };
        (name.to_string(), kind)
    };
    declared(text, "fn", parameter)
}

/// The functions that the library exports. Its name for the layout record is `words`.
pub fn library_calls(text: &str) -> Vec<Declared> {
    let parameter = |text: &str| {
        let (name, kind) = text.split_once(": ").unwrap();
        let name = if name == "words" { "record" } else { name };
        let kind = match kind {
            "u64" => Kind::Number,
            "&mut State" => Kind::State,
            kind => {
                let (before, of) = kind.split_once('[').expect(kind);
                Kind::Buffer {
                    element: element(of.trim_end_matches(']')),
                    written: before == "&mut ",
                }
            }
        };
        (name.to_string(), kind)
    };
    declared(text, "pub extern \"C\" fn", parameter)
}
