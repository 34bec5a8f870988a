//! The grammar of rows (`crates/inline_vectors/README.md`) as tokens, and how they are printed.
use Token::{Bytes, Char, List, Number, Range, Text, Word};
use std::fmt::{self, Display, Formatter};

/// A word or a sign, or a value.
#[derive(Clone, PartialEq)]
pub enum Token<'a> {
    Word(&'a str),
    Number(usize),
    Range(usize, usize),
    Char(char),
    Text(String),
    Bytes(Vec<u8>),
    List(Vec<Token<'a>>),
}

/// The tokens of a line; none where one can't be read.
pub fn tokens(mut line: &str) -> Option<Vec<Token<'_>>> {
    let mut all = Vec::new();
    while !line.trim_start().is_empty() {
        all.push(token(&mut line)?);
    }
    Some(all)
}

/// The next token: of pieces, all together.
fn token<'a>(line: &mut &'a str) -> Option<Token<'a>> {
    let mut token = piece(line)?;
    if eats(line, "*") {
        let times = number(line)?;
        token = match token {
            Text(text) => Text(text.repeat(times)),
            Bytes(bytes) => Bytes(bytes.repeat(times)),
            List(items) => List(vec![items; times].concat()),
            _ => return None,
        };
    }
    if !eats(line, "+") {
        return Some(token);
    }
    Some(match (token, self::token(line)?) {
        (Text(text), Text(more)) => Text(text + &more),
        (Bytes(bytes), Bytes(more)) => Bytes([bytes, more].concat()),
        (List(items), List(more)) => List([items, more].concat()),
        _ => return None,
    })
}

fn piece<'a>(line: &mut &'a str) -> Option<Token<'a>> {
    *line = line.trim_start();
    if line.starts_with("b\"") {
        *line = &line[1..];
        return quoted(line).map(Bytes);
    }
    match line.chars().next()? {
        '"' => String::from_utf8(quoted(line)?).ok().map(Text),
        '\'' => str::from_utf8(&quoted(line)?).ok()?.parse().ok().map(Char),
        '[' => {
            let (mut items, mut is_next) = (Vec::new(), eats(line, "["));
            while !eats(line, "]") {
                items.push(is_next.then(|| token(line))??);
                is_next = eats(line, ",");
            }
            Some(List(items))
        }
        ':' | ';' | ',' | '=' => {
            let (sign, rest) = line.split_at(1);
            *line = rest;
            Some(Word(sign))
        }
        first if first.is_ascii_digit() || line.starts_with("max") => {
            let number = number(line)?;
            Some(if eats(line, "..") { Range(number, self::number(line)?) } else { Number(number) })
        }
        _ => Some(word(line)).filter(|word| !word.is_empty()).map(Word),
    }
}

fn number(line: &mut &str) -> Option<usize> {
    match word(line) {
        "max" if eats(line, "-") => usize::MAX.checked_sub(number(line)?),
        "max" => Some(usize::MAX),
        digits => digits.strip_prefix("0x").map_or(digits.parse(), |digits| usize::from_str_radix(digits, 16)).ok(),
    }
}

fn word<'a>(line: &mut &'a str) -> &'a str {
    let is_end = |ch: char| !ch.is_alphanumeric() && !"_-<>".contains(ch);
    *line = line.trim_start();
    let (word, rest) = line.split_at(line.find(is_end).unwrap_or(line.len()));
    *line = rest;
    word
}

/// Whether this is next, and so was read.
fn eats(line: &mut &str, sign: &str) -> bool {
    line.trim_start().strip_prefix(sign).map(|rest| *line = rest).is_some()
}

/// What is in quotes, without its escapes.
fn quoted(line: &mut &str) -> Option<Vec<u8>> {
    let (mut all, mut chars) = (Vec::new(), line.chars());
    let quote = chars.next()?;
    loop {
        let ch = match chars.next()? {
            ch if ch == quote => break *line = chars.as_str(),
            '\\' => match chars.next()? {
                'n' => '\n',
                'r' => '\r',
                't' => '\t',
                '0' => '\0',
                kind @ ('x' | 'u') => {
                    let end = if kind == 'x' { 2 } else { chars.as_str().find('}')? + 1 };
                    let (digits, rest) = chars.as_str().split_at_checked(end)?;
                    chars = rest.chars();
                    let code = u32::from_str_radix(digits.trim_matches(['{', '}']), 16).ok()?;
                    if kind == 'x' {
                        all.push(code as u8);
                        continue;
                    }
                    char::from_u32(code)?
                }
                ch => ch,
            },
            ch => ch,
        };
        all.extend_from_slice(ch.encode_utf8(&mut [0; 4]).as_bytes());
    }
    Some(all)
}

impl Display for Token<'_> {
    fn fmt(&self, f: &mut Formatter) -> fmt::Result {
        match self {
            Word(word) => f.write_str(word),
            Number(number) => write!(f, "{number}"),
            Range(start, end) => write!(f, "{start}..{end}"),
            Char(ch) => write!(f, "'{}'", escaped(*ch, '\'')),
            Text(text) => write!(f, "\"{}\"", text.chars().map(|ch| escaped(ch, '"')).collect::<String>()),
            Bytes(bytes) => write!(f, "b\"{}\"", bytes.iter().map(escaped_byte).collect::<String>()),
            List(items) => write!(f, "[{}]", printed(items, ", ")),
        }
    }
}

pub fn printed(tokens: &[Token], between: &str) -> String {
    tokens.iter().map(Token::to_string).collect::<Vec<String>>().join(between)
}

fn escaped(ch: char, quote: char) -> String {
    match ch {
        '\0' => "\\0".into(),
        '\n' | '\r' | '\t' | '\\' => ch.escape_default().to_string(),
        _ if ch == quote => format!("\\{ch}"),
        _ if ch.is_control() => ch.escape_unicode().to_string(),
        _ => ch.into(),
    }
}

fn escaped_byte(byte: &u8) -> String {
    match byte {
        b'\0' | b'\n' | b'\r' | b'\t' | b' '..=b'~' => escaped(char::from(*byte), '"'),
        _ => format!("\\x{byte:02x}"),
    }
}
