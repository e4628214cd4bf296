//! Reads the C interface as three texts tell it: what the proved archive exports, what the C header declares, and what the Rust
//! crate declares. Each gives functions with their parameters and structs with their fields, in their order.

/// A function or a struct.
#[derive(Clone, Debug)]
pub struct Item {
    pub name: String,
    /// File and line.
    pub place: String,
    /// Parameters or fields.
    pub parts: Vec<Part>,
    /// What a function gives back; a struct has none.
    pub result: Option<String>,
}

/// A parameter or a field. Types are written as in Rust, and a struct by its name in C.
#[derive(Clone, Debug, PartialEq, Eq)]
pub struct Part {
    pub name: String,
    pub of: String,
}

/// What one text says: its items, and what is wrong with it by itself.
#[derive(Clone, Debug, Default)]
pub struct Side {
    pub items: Vec<Item>,
    pub faults: Vec<String>,
}

/// The slices that are named otherwise in the proved crate than in C: there, and in C the pointer and the length.
const OTHER_WORDS: [(&str, &str, &str); 1] = [("words", "record", "record_words")];

/// A slice crosses as a pointer and a length: `cells: &mut [u32]` as `cells` and `cell_words`.
fn slice(name: &str, how: &str, element: &str) -> Vec<Part> {
    let one = match (name.strip_suffix("ies"), name.strip_suffix('s')) {
        (Some(stem), _) => format!("{stem}y"),
        (_, Some(stem)) => stem.to_string(),
        _ => name.to_string(),
    };
    let unit = match element {
        "u8" => "bytes",
        "u32" => "words",
        _ => "count",
    };
    let (pointer, length) = match OTHER_WORDS.iter().find(|(here, ..)| *here == name) {
        Some((_, pointer, length)) => (pointer.to_string(), length.to_string()),
        None => (name.to_string(), format!("{one}_{unit}")),
    };
    vec![Part { name: pointer, of: format!("*{how} {element}") }, Part { name: length, of: "usize".into() }]
}

/// `LaneServed` is `lane_served` in C. Names that do not begin with a capital stay.
fn c_name(name: &str) -> String {
    let mut out = String::new();
    for c in name.chars() {
        if c.is_uppercase() && !out.is_empty() {
            out.push('_');
        }
        out.extend(c.to_lowercase());
    }
    if name.starts_with(char::is_uppercase) {
        out
    } else {
        name.into()
    }
}

/// A word, a sign or a string, with its line.
struct Token {
    text: String,
    line: usize,
}

/// The tokens of a text, without comments, lifetimes, characters and lines of the preprocessor.
fn tokens(text: &str) -> Vec<Token> {
    let chars: Vec<char> = text.chars().collect();
    let at_is = |at: usize, what: &str| what.chars().enumerate().all(|(i, c)| chars.get(at + i) == Some(&c));
    let behind = |from: usize, what: &str| {
        (from..chars.len()).find(|&i| at_is(i, what)).map_or(chars.len(), |i| i + what.chars().count())
    };
    let word_end = |from: usize| {
        let past = |&i: &usize| !(chars[i].is_alphanumeric() || chars[i] == '_');
        (from..chars.len()).find(past).unwrap_or(chars.len())
    };
    let (mut out, mut at, mut line) = (Vec::new(), 0, 1);
    while at < chars.len() {
        let (end, counts) = match chars[at] {
            c if c.is_whitespace() => (at + 1, false),
            '/' if at_is(at, "//") => (behind(at, "\n"), false),
            '/' if at_is(at, "/*") => (behind(at + 2, "*/"), false),
            // in Rust an attribute begins so, with a bracket
            '#' if !at_is(at, "#[") && !at_is(at, "#!") => (behind(at, "\n"), false),
            '"' => {
                let mut end = at + 1;
                while end < chars.len() && chars[end] != '"' {
                    end += if chars[end] == '\\' { 2 } else { 1 };
                }
                ((end + 1).min(chars.len()), true)
            }
            '\'' if at_is(at + 1, "\\") => (behind(at + 3, "'"), false),
            '\'' if at_is(at + 2, "'") => (at + 3, false),
            '\'' => (word_end(at + 1), false),
            '-' if at_is(at, "->") => (at + 2, true),
            _ => (word_end(at).max(at + 1), true),
        };
        let text: String = chars[at..end].iter().collect();
        at = end;
        let next = line + text.matches('\n').count();
        if counts {
            out.push(Token { text, line });
        }
        line = next;
    }
    out
}

/// Tokens still to be read, of this file.
struct Reader<'a> {
    file: &'a str,
    left: std::iter::Peekable<std::vec::IntoIter<Token>>,
}

impl<'a> Reader<'a> {
    fn new(file: &'a str, text: &str) -> Reader<'a> {
        Reader { file, left: tokens(text).into_iter().peekable() }
    }

    fn takes(&mut self, text: &str) -> bool {
        self.left.next_if(|token| token.text == text).is_some()
    }

    fn place(&mut self) -> String {
        format!("{}:{}", self.file, self.left.peek().map_or(0, |token| token.line))
    }

    /// The tokens before the first of these outside of brackets; it is not taken.
    fn until(&mut self, ends: &[&str]) -> Vec<String> {
        let (mut depth, mut out) = (0, Vec::new());
        while let Some(token) = self.left.next_if(|token| depth > 0 || !ends.contains(&token.text.as_str())) {
            depth += nesting(&token.text);
            out.push(token.text);
        }
        out
    }

    /// What is enclosed in the brackets that were just opened.
    fn enclosed(&mut self) -> Vec<String> {
        let inside = self.until(&[")", "]", "}"]);
        self.left.next();
        inside
    }
}

/// By how much a token opens or closes brackets.
fn nesting(token: &str) -> i32 {
    match token {
        "(" | "[" | "{" => 1,
        ")" | "]" | "}" => -1,
        _ => 0,
    }
}

/// What stands between the signs that are outside of brackets; no empty part.
fn split<'a>(tokens: &'a [String], by: &str) -> Vec<Vec<&'a str>> {
    let (mut depth, mut parts) = (0, vec![Vec::new()]);
    for token in tokens {
        depth += nesting(token);
        match depth == 0 && token == by {
            true => parts.push(Vec::new()),
            false => parts.last_mut().expect("one at least").push(token.as_str()),
        }
    }
    parts.retain(|part| !part.is_empty());
    parts
}

/// A text of Rattle or Rust: functions exported by `extern "C" fn`, functions declared in `extern "C" { .. }`, and structs
/// marked `#[repr(C)]`.
pub fn rust(file: &str, text: &str) -> Side {
    let mut reader = Reader::new(file, text);
    let mut side = Side::default();
    let mut marks: Vec<String> = Vec::new();
    while reader.left.peek().is_some() {
        if reader.takes("#") {
            if reader.takes("[") {
                marks.push(reader.enclosed().concat());
            }
        } else if reader.takes("extern") && reader.takes("\"C\"") {
            if reader.takes("fn") {
                let function = rust_function(&mut reader);
                if !marks.contains(&"unsafe(no_mangle)".into()) {
                    side.faults.push(format!("{}: {} is not #[unsafe(no_mangle)]", function.place, function.name));
                }
                side.items.push(function);
            } else if reader.takes("{") {
                while reader.left.peek().is_some() && !reader.takes("}") {
                    match reader.takes("fn") {
                        true => side.items.push(rust_function(&mut reader)),
                        false => drop(reader.left.next()),
                    }
                }
            }
            marks.clear();
        } else if reader.takes("struct") {
            let (place, name) = (reader.place(), reader.until(&["{", ";", "("]).concat());
            if reader.takes("{") {
                let fields = reader.enclosed();
                if marks.contains(&"repr(C)".into()) {
                    let parts = split(&fields, ",").iter().flat_map(|field| rust_part(field)).collect();
                    side.items.push(Item { name: c_name(&name), place, parts, result: None });
                }
            }
            marks.clear();
        } else if !reader.takes("pub") {
            reader.left.next();
            marks.clear();
        }
    }
    side
}

/// A function from its name on to its result.
fn rust_function(reader: &mut Reader) -> Item {
    let (place, name) = (reader.place(), reader.until(&["(", "<"]).concat());
    // lifetimes, if any
    reader.until(&["("]);
    reader.takes("(");
    let parts = split(&reader.enclosed(), ",").iter().flat_map(|part| rust_part(part)).collect();
    let result = match reader.takes("->") {
        true => {
            let result = reader.until(&["{", ";", "requires", "ensures"]);
            rust_type(&result.iter().map(String::as_str).collect::<Vec<_>>())
        }
        false => "()".into(),
    };
    Item { name, place, parts, result: Some(result) }
}

/// `name: type`; a slice as what C sees of it.
fn rust_part(tokens: &[&str]) -> Vec<Part> {
    match tokens {
        ["pub" | "mut", rest @ ..] => rust_part(rest),
        [name, ":", "&", "mut", "[", element @ .., "]"] => slice(name, "mut", &rust_type(element)),
        [name, ":", "&", "[", element @ .., "]"] => slice(name, "const", &rust_type(element)),
        [name, ":", of @ ..] => vec![Part { name: name.to_string(), of: rust_type(of) }],
        _ => vec![Part { name: tokens.concat(), of: "?".into() }],
    }
}

fn rust_type(tokens: &[&str]) -> String {
    match tokens {
        ["*", how @ ("mut" | "const"), of @ ..] => format!("*{how} {}", rust_type(of)),
        ["&", "mut", of @ ..] => format!("*mut {}", rust_type(of)),
        ["&", of @ ..] => format!("*const {}", rust_type(of)),
        // the last name of a path
        [.., ":", name] | [name] => c_name(name),
        _ => tokens.concat(),
    }
}

/// A C header: prototypes and structs. Enums and inline functions are passed over, and whatever else is a fault.
pub fn c(file: &str, text: &str) -> Side {
    let mut reader = Reader::new(file, text);
    let mut side = Side::default();
    while reader.left.peek().is_some() {
        // what makes it C++, and signs that end something
        if reader.takes("extern") && reader.takes("\"C\"") && reader.takes("{")
            || reader.takes("}")
            || reader.takes(";")
        {
            continue;
        }
        let place = reader.place();
        let head = reader.until(&["{", "(", ";", "}"]);
        let head: Vec<&str> = head.iter().map(String::as_str).collect();
        match head.as_slice() {
            ["struct", name] if reader.takes("{") => {
                let parts = split(&reader.enclosed(), ";").iter().flat_map(|field| c_parts(field)).collect();
                side.items.push(Item { name: name.to_string(), place, parts, result: None });
            }
            ["enum", ..] if reader.takes("{") => drop(reader.enclosed()),
            ["static", "inline", ..] if reader.takes("(") => {
                reader.enclosed();
                reader.takes("{");
                reader.enclosed();
            }
            [result @ .., name] if !result.is_empty() && reader.takes("(") => {
                let parts = split(&reader.enclosed(), ",").iter().flat_map(|part| c_parts(part)).collect();
                let result = Some(c_type(result));
                side.items.push(Item { name: name.to_string(), place, parts, result });
            }
            _ => {
                side.faults.push(format!("{place}: not understood: {}", head.join(" ")));
                reader.left.next();
            }
        }
    }
    side
}

/// `type name`, or several names of one type; `void` is nothing.
fn c_parts(tokens: &[&str]) -> Vec<Part> {
    if tokens == ["void"] {
        return Vec::new();
    }
    let declared: Vec<&[&str]> = tokens.split(|token| *token == ",").collect();
    let Some((&[ref of @ .., name], more)) = declared.split_first() else { return Vec::new() };
    let others = more.iter().map(|name| name.concat());
    let names = std::iter::once(name.to_string()).chain(others);
    names.map(|name| Part { name, of: c_type(of) }).collect()
}

fn c_type(tokens: &[&str]) -> String {
    match tokens {
        ["const", of @ .., "*"] => format!("*const {}", c_type(of)),
        [of @ .., "*"] => format!("*mut {}", c_type(of)),
        ["struct", name] => name.to_string(),
        ["uint8_t"] => "u8".into(),
        ["uint16_t"] => "u16".into(),
        ["uint32_t"] => "u32".into(),
        ["uint64_t"] => "u64".into(),
        ["size_t"] => "usize".into(),
        ["void"] => "()".into(),
        _ => tokens.join(" "),
    }
}
