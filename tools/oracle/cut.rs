//! Cuts items of a Rust source file out by name, as they stand.
//!
//! The scanner knows strings, raw strings, char literals, lifetimes and comments, so that a bracket inside of one does not count.

/// The end of the string, char literal or comment that starts at `at`, if one does.
fn skip_opaque(text: &[u8], at: usize) -> Option<usize> {
    let rest = &text[at..];
    if rest.starts_with(b"//") {
        return Some(find(text, at, b"\n").unwrap_or(text.len()));
    }
    if rest.starts_with(b"/*") {
        return Some(skip_block_comment(text, at));
    }
    match rest.first()? {
        b'"' => Some(skip_string(text, at)),
        b'\'' => skip_char(text, at),
        b'r' if at == 0 || !is_word(text[at - 1]) || text[at - 1] == b'b' => skip_raw_string(text, at),
        _ => None,
    }
}

fn find(text: &[u8], from: usize, what: &[u8]) -> Option<usize> {
    (from..=text.len().checked_sub(what.len())?).find(|&i| text[i..].starts_with(what))
}

fn is_word(byte: u8) -> bool {
    byte.is_ascii_alphanumeric() || byte == b'_'
}

fn skip_block_comment(text: &[u8], at: usize) -> usize {
    let mut depth = 0;
    let mut i = at;
    while i < text.len() {
        if text[i..].starts_with(b"/*") {
            depth += 1;
            i += 2;
        } else if text[i..].starts_with(b"*/") {
            depth -= 1;
            i += 2;
            if depth == 0 {
                return i;
            }
        } else {
            i += 1;
        }
    }
    i
}

fn skip_string(text: &[u8], at: usize) -> usize {
    let mut i = at + 1;
    while i < text.len() && text[i] != b'"' {
        i += if text[i] == b'\\' { 2 } else { 1 };
    }
    i + 1
}

/// A char literal, or None at a lifetime.
fn skip_char(text: &[u8], at: usize) -> Option<usize> {
    if text.get(at + 1) == Some(&b'\\') {
        return find(text, at + 3, b"'").map(|end| end + 1);
    }
    let rest = std::str::from_utf8(&text[at + 1..]).ok()?;
    let end = at + 1 + rest.chars().next()?.len_utf8();
    (text.get(end) == Some(&b'\'')).then_some(end + 1)
}

/// A raw string, or None where the `r` starts a word.
fn skip_raw_string(text: &[u8], at: usize) -> Option<usize> {
    let hashes = text[at + 1..].iter().take_while(|b| **b == b'#').count();
    if text.get(at + 1 + hashes) != Some(&b'"') {
        return None;
    }
    let mut close = vec![b'"'];
    close.extend(vec![b'#'; hashes]);
    find(text, at + 2 + hashes, &close).map(|end| end + close.len())
}

/// The items of a file (or of the inside of an `impl`), one after the other, each with its attributes and comments.
fn items(text: &str) -> Vec<&str> {
    let bytes = text.as_bytes();
    let mut found = Vec::new();
    let mut start = 0;
    while let Some(end) = item_end(bytes, start) {
        found.push(text[start..end].trim_start());
        start = end;
    }
    found
}

/// Where the item that starts at `start` ends: at a `;` outside of all brackets, or at the `}` of its block.
fn item_end(text: &[u8], start: usize) -> Option<usize> {
    let by_semicolon = ends_by_semicolon(head_of(&text[start..]));
    let mut depth = 0usize;
    let mut i = start;
    while i < text.len() {
        if let Some(next) = skip_opaque(text, i) {
            i = next;
            continue;
        }
        match text[i] {
            b'(' | b'[' | b'{' => depth += 1,
            b')' | b']' => depth -= 1,
            b'}' => {
                depth = depth.checked_sub(1)?;
                if depth == 0 && !by_semicolon {
                    return Some(i + 1);
                }
            }
            b';' if depth == 0 => return Some(i + 1),
            _ => {}
        }
        i += 1;
    }
    None
}

fn ends_by_semicolon(head: String) -> bool {
    ["use ", "type ", "static ", "const "].iter().any(|word| head.starts_with(word) && !head.starts_with("const fn "))
}

/// What stands before an item's block, `=` or `;`, without attributes, comments and `pub`, one blank between words.
fn head_of(text: &[u8]) -> String {
    let mut head = Vec::new();
    let mut i = 0;
    while i < text.len() && !matches!(text[i], b'{' | b';' | b'=') {
        if text[i] == b'#' && text.get(i + 1) == Some(&b'[') {
            i = find(text, i, b"]").map_or(text.len(), |end| end + 1);
        } else if let Some(next) = skip_opaque(text, i) {
            i = next;
        } else {
            head.push(text[i]);
            i += 1;
        }
    }
    let text = String::from_utf8_lossy(&head).into_owned();
    let words: Vec<&str> = text.split_whitespace().filter(|word| *word != "pub" && !word.starts_with("pub(")).collect();
    words.join(" ")
}

/// Whether a head is that of the item asked for: `fn gensym`, `struct Binding`, `impl Eq for SExp`.
fn is_named(head: &str, wanted: &str) -> bool {
    head.strip_prefix(wanted).is_some_and(|rest| rest.is_empty() || (!wanted.starts_with("impl") && !is_word(rest.as_bytes()[0])))
}

/// The item of this name, as it stands.
pub fn item<'a>(text: &'a str, wanted: &str) -> Option<&'a str> {
    items(text).into_iter().find(|item| is_named(&head_of(item.as_bytes()), wanted))
}

/// The method of this name of an `impl`, as it stands.
pub fn method<'a>(text: &'a str, owner: &str, name: &str) -> Option<&'a str> {
    let block = item(text, owner)?;
    item(&block[block_start(block.as_bytes())?..], name)
}

/// The offset after an item's first `{`.
fn block_start(text: &[u8]) -> Option<usize> {
    let mut i = 0;
    while i < text.len() {
        if let Some(next) = skip_opaque(text, i) {
            i = next;
        } else if text[i] == b'{' {
            return Some(i + 1);
        } else {
            i += 1;
        }
    }
    None
}

/// Takes `Serialize` and `Deserialize` out of the derive lists.
pub fn without_serde(text: &str) -> String {
    text.lines().map(plain_derive).collect::<Vec<String>>().join("\n")
}

fn plain_derive(line: &str) -> String {
    let list = line.trim().strip_prefix("#[derive(").and_then(|rest| rest.strip_suffix(")]"));
    let Some(list) = list else {
        return line.to_string();
    };
    let kept: Vec<&str> = list.split(',').map(str::trim).filter(|name| !matches!(*name, "Serialize" | "Deserialize")).collect();
    format!("#[derive({})]", kept.join(", "))
}
