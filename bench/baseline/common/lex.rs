//! Tokens of sources.
use super::{Fault, fault};

macro_rules! words {
    ($name:ident: $($variant:ident $text:literal),* $(,)?) => {
        #[derive(Clone, Copy, Debug, PartialEq, Eq)]
        pub enum $name { $($variant),* }
        impl $name {
            pub fn of(text: &[u8]) -> Option<$name> {
                match text { $($text => Some($name::$variant),)* _ => None }
            }
            pub fn text(self) -> &'static [u8] {
                match self { $($name::$variant => $text),* }
            }
        }
    };
}

words!(Keyword: Type b"type", State b"state", Op b"op", Contract b"contract", Answer b"answer", Emit b"emit", When b"when",
    Apply b"apply", Transaction b"transaction", Uses b"uses", Forall b"forall", True b"true", False b"false", Unit b"unit",
    Empty b"empty", If b"if", Then b"then", Else b"else", And b"and", Or b"or", Not b"not", Int b"int", Bool b"bool",
    Text b"text", Set b"set", Map b"map", Cur b"cur", Txn b"txn", Vis b"vis", So b"so", Soo b"soo", SameObj b"sameobj",
    Eq b"eq", Hb b"hb", Hbo b"hbo");

words!(Mark: Implies b"=>", EqEq b"==", Ne b"!=", Le b"<=", Ge b">=", Both b"/\\", Either b"\\/", Assign b":=", BraceOpen b"{",
    BraceClose b"}", ParenOpen b"(", ParenClose b")", BracketOpen b"[", BracketClose b"]", Comma b",", Semi b";", Colon b":",
    Dot b".", Equals b"=", Lt b"<", Gt b">", Plus b"+", Minus b"-", Star b"*", Bar b"|", Amp b"&");

#[derive(Clone, Copy, Debug, PartialEq, Eq)]
pub enum Kind {
    Name,
    Int,
    Text,
    Mark(Mark),
    Keyword(Keyword),
    End,
}

#[derive(Clone, Copy, Debug)]
pub struct Token {
    pub kind: Kind,
    pub from: u32,
    pub to: u32,
}

pub fn tokens(text: &[u8]) -> Result<Vec<Token>, Fault> {
    let mut tokens = Vec::new();
    let mut at = skip(text, 0);
    while at < text.len() {
        let (kind, to) = match text[at] {
            b'a'..=b'z' => word(text, at)?,
            b'0'..=b'9' => (Kind::Int, integer(text, at)?),
            b'"' => (Kind::Text, quoted(text, at)?),
            _ => mark(text, at)?,
        };
        tokens.push(Token { kind, from: at as u32, to: to as u32 });
        at = skip(text, to);
    }
    tokens.push(Token { kind: Kind::End, from: text.len() as u32, to: text.len() as u32 });
    Ok(tokens)
}

/// Past blanks and comments.
fn skip(text: &[u8], mut at: usize) -> usize {
    while at < text.len() {
        match text[at] {
            b' ' | b'\t' | b'\r' | b'\n' => at += 1,
            b'#' => at += text[at..].iter().position(|b| *b == b'\n').unwrap_or(text.len() - at),
            _ => break,
        }
    }
    at
}

fn run(text: &[u8], from: usize, test: impl Fn(u8) -> bool) -> usize {
    from + text[from..].iter().take_while(|b| test(**b)).count()
}

fn word(text: &[u8], at: usize) -> Result<(Kind, usize), Fault> {
    let to = run(text, at, |b| b.is_ascii_lowercase() || b.is_ascii_digit() || b == b'_');
    if to - at > 32 {
        return fault(at, "LongWord");
    }
    let kind = if to - at <= 11 { Keyword::of(&text[at..to]) } else { None };
    Ok((kind.map_or(Kind::Name, Kind::Keyword), to))
}

fn integer(text: &[u8], at: usize) -> Result<usize, Fault> {
    let to = run(text, at, |b| b.is_ascii_digit());
    let joined = text.get(to).is_some_and(|b| b.is_ascii_alphabetic() || *b == b'_');
    if joined || (text[at] == b'0' && to - at > 1) || value(&text[at..to]).is_none() {
        return fault(at, "BadNumber");
    }
    Ok(to)
}

/// The value of digits, where it is one of 64 bits.
pub fn value(digits: &[u8]) -> Option<i64> {
    digits.iter().try_fold(0i64, |value, b| value.checked_mul(10)?.checked_add((b - b'0') as i64))
}

fn quoted(text: &[u8], at: usize) -> Result<usize, Fault> {
    let end = run(text, at + 1, |b| (32..=126).contains(&b) && b != b'"' && b != b'\\');
    if end - at - 1 > 64 {
        return fault(at, "LongWord");
    }
    if text.get(end) != Some(&b'"') {
        return fault(end, "BadChar");
    }
    Ok(end + 1)
}

fn mark(text: &[u8], at: usize) -> Result<(Kind, usize), Fault> {
    use Mark::*;
    let next = text.get(at + 1);
    let (mark, length) = match (text[at], next) {
        (b'=', Some(b'>')) => (Implies, 2),
        (b'=', Some(b'=')) => (EqEq, 2),
        (b'!', Some(b'=')) => (Ne, 2),
        (b'<', Some(b'=')) => (Le, 2),
        (b'>', Some(b'=')) => (Ge, 2),
        (b'/', Some(b'\\')) => (Both, 2),
        (b'\\', Some(b'/')) => (Either, 2),
        (b':', Some(b'=')) => (Assign, 2),
        (b'{', _) => (BraceOpen, 1),
        (b'}', _) => (BraceClose, 1),
        (b'(', _) => (ParenOpen, 1),
        (b')', _) => (ParenClose, 1),
        (b'[', _) => (BracketOpen, 1),
        (b']', _) => (BracketClose, 1),
        (b',', _) => (Comma, 1),
        (b';', _) => (Semi, 1),
        (b':', _) => (Colon, 1),
        (b'.', _) => (Dot, 1),
        (b'=', _) => (Equals, 1),
        (b'<', _) => (Lt, 1),
        (b'>', _) => (Gt, 1),
        (b'+', _) => (Plus, 1),
        (b'-', _) => (Minus, 1),
        (b'*', _) => (Star, 1),
        (b'|', _) => (Bar, 1),
        (b'&', _) => (Amp, 1),
        _ => return fault(at, "BadChar"),
    };
    Ok((Kind::Mark(mark), at + length))
}
