//! The tokens of a Rattle text, with what stands between them.

#[derive(Clone, Copy, PartialEq, Eq, Debug)]
pub enum Kind {
    /// Spaces, line ends and comments.
    Between,
    /// A word or a number.
    Word,
    /// A lifetime, a byte, a byte string or a string.
    Quoted,
    /// One sign of the language, `::` being one.
    Sign,
    /// A sign that stands in contracts alone.
    Other,
}

#[derive(Clone, Copy, Debug)]
pub struct Token<'a> {
    pub kind: Kind,
    pub text: &'a str,
    pub line: usize,
}

/// The tokens of a text in turn, with nothing left out.
pub fn tokens(text: &str) -> Vec<Token<'_>> {
    let mut tokens = Vec::new();
    let mut rest = text;
    let mut line = 1;
    while !rest.is_empty() {
        let (kind, length) = first(rest);
        let (text, behind) = rest.split_at(length);
        tokens.push(Token { kind, text, line });
        line += text.matches('\n').count();
        rest = behind;
    }
    tokens
}

/// The kind and the length of the first token.
fn first(text: &str) -> (Kind, usize) {
    let length_while = |belongs: fn(char) -> bool| text.find(|c| !belongs(c)).unwrap_or(text.len());
    let sign = text.chars().next().expect("not empty");
    if text.starts_with("//") {
        return (Kind::Between, text.find('\n').unwrap_or(text.len()));
    }
    if sign.is_ascii_whitespace() {
        return (Kind::Between, length_while(|c| c.is_ascii_whitespace()));
    }
    if let Some(length) = quoted(text) {
        return (Kind::Quoted, length);
    }
    if is_word(sign) {
        return (Kind::Word, length_while(is_word));
    }
    if text.starts_with("::") {
        return (Kind::Sign, 2);
    }
    let known = "{}()[]<>#&|^!=+-*/%.,:;?@".contains(sign) && !text.starts_with("/*");
    (if known { Kind::Sign } else { Kind::Other }, sign.len_utf8())
}

fn is_word(c: char) -> bool {
    c.is_ascii_alphanumeric() || c == '_'
}

/// The length of a byte string, a string, a byte or a lifetime that stands first, if one does.
fn quoted(text: &str) -> Option<usize> {
    let start = usize::from(text.starts_with('b'));
    let quote = *text.as_bytes().get(start)?;
    if quote == b'"' {
        return closed(text, start + 1, quote);
    }
    if quote != b'\'' {
        return None;
    }
    if start == 1 {
        // A name of a contract may end in a quote: of a byte there is one.
        return closed(text, 2, quote).filter(|end| *end == 4 || text.as_bytes()[2] == b'\\');
    }
    let name = text[1..].find(|c| !is_word(c)).unwrap_or(text.len() - 1);
    Some(1 + name).filter(|_| name > 0)
}

/// The length to behind the quote that closes what begins at `from`, on the same line.
fn closed(text: &str, from: usize, quote: u8) -> Option<usize> {
    let mut at = from;
    while let Some(byte) = text.as_bytes().get(at) {
        match *byte {
            b'\n' => return None,
            b'\\' => at += 2,
            byte if byte == quote => return Some(at + 1),
            _ => at += 1,
        }
    }
    None
}
