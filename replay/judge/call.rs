//! One call and what it is given; and what it answers, in the canonical form.
use crate::read::Token;
use std::cmp::Ordering;
use std::fmt::Debug;

/// A call. What it has no use for is empty, or zero.
#[derive(Default)]
pub struct Call<'a> {
    pub word: &'a str,
    /// A place, an amount, a width or a capacity, and the end of a range.
    pub number: usize,
    pub end: usize,
    /// A text, a character or bytes.
    pub bytes: Vec<u8>,
    pub list: Option<Vec<Token<'a>>>,
}

impl<'a> Call<'a> {
    /// Of what it is given: how the text of a comparison is made, which comes last, must change no answer.
    pub fn of(word: &'a str, given: &[Token<'a>]) -> Call<'a> {
        let mut call = Call { word, ..Call::default() };
        for token in given.iter().rev() {
            match token {
                Token::Number(number) => call.number = *number,
                Token::Range(start, end) => (call.number, call.end) = (*start, *end),
                Token::Char(ch) => call.bytes = ch.to_string().into(),
                Token::Text(text) => call.bytes = text.clone().into(),
                Token::Bytes(bytes) => call.bytes = bytes.clone(),
                Token::List(items) => call.list = Some(items.clone()),
                Token::Word(_) => {}
            }
        }
        call
    }

    pub fn string(&self) -> Option<&str> {
        str::from_utf8(&self.bytes).ok()
    }

    pub fn first(&self) -> Option<char> {
        self.string()?.chars().next()
    }

    pub fn strings(&self) -> Option<Vec<&str>> {
        let items = self.list.as_ref()?.iter();
        items.map(|item| if let Token::Text(text) = item { Some(&text[..]) } else { None }).collect()
    }

    pub fn units(&self) -> Option<Vec<u16>> {
        let unit = |item: &Token| if let Token::Number(unit) = item { u16::try_from(*unit).ok() } else { None };
        self.list.as_ref()?.iter().map(unit).collect()
    }
}

pub fn done(_: ()) -> String {
    "done".into()
}

/// Of a call that returns nothing, or a `Result`.
pub fn or(fault: &str, result: impl Debug) -> String {
    if format!("{result:?}").starts_with("Err") { fault } else { "done" }.into()
}

pub fn text(text: &str) -> String {
    Token::Text(text.into()).to_string()
}

pub fn bytes(bytes: &[u8]) -> String {
    Token::Bytes(bytes.into()).to_string()
}

pub fn character(found: Option<char>) -> String {
    found.map_or("none".into(), |ch| Token::Char(ch).to_string())
}

pub fn order(order: Ordering) -> String {
    format!("{order:?}").to_lowercase()
}

