//! The words of a scenario's line, with their places: how to take them one by one, and
//! the numbers among them.

use std::ops::RangeInclusive;

use crate::mistake::Mistake;
use crate::parse::Parsed;

#[derive(Clone, Debug)]
pub struct Token {
    pub text: String,
    /// Its first character in the line, from 0.
    pub column: usize,
}

/// A line's words without its remark. A colon is a word by itself.
pub fn tokens(line: &str) -> Vec<Token> {
    let mut all: Vec<Token> = Vec::new();
    let mut open = false;
    let kept = line.chars().take_while(|&c| c != '#');
    for (column, character) in kept.enumerate() {
        match character {
            c if c.is_whitespace() || c.is_control() => open = false,
            ':' => {
                all.push(Token {
                    text: ":".into(),
                    column,
                });
                open = false;
            }
            c if open => all.last_mut().expect("an open word").text.push(c),
            c => {
                all.push(Token {
                    text: c.into(),
                    column,
                });
                open = true;
            }
        }
    }
    all
}

/// The words that are left of a line.
pub struct Words<'a> {
    line: usize,
    all: &'a [Token],
    next: usize,
}

impl<'a> Words<'a> {
    pub fn of(line: usize, all: &'a [Token]) -> Words<'a> {
        Words { line, all, next: 0 }
    }

    pub fn line(&self) -> usize {
        self.line
    }

    pub fn peek(&self) -> Option<&'a str> {
        self.after(0)
    }

    /// The word so many behind the next.
    pub fn after(&self, count: usize) -> Option<&'a str> {
        self.all.get(self.next + count).map(|t| t.text.as_str())
    }

    pub fn take(&mut self) -> Option<&'a str> {
        let word = self.peek();
        self.next += usize::from(word.is_some());
        word
    }

    /// Takes the next word if it is one of these.
    pub fn take_if(&mut self, words: &[&str]) -> bool {
        let is = self.peek().is_some_and(|word| words.contains(&word));
        self.next += usize::from(is);
        is
    }

    /// A mistake at the word taken last.
    pub fn at_last(&self, what: impl Into<String>, allowed: impl Into<String>) -> Mistake {
        self.at(self.next.saturating_sub(1), what, allowed)
    }

    /// How many words have been taken.
    pub fn taken(&self) -> usize {
        self.next
    }

    /// A mistake in all words taken since so many had been.
    pub fn since(&self, taken: usize, what: String, allowed: String) -> Mistake {
        let (first, last) = (self.at(taken, "", ""), self.at_last(what, allowed));
        Mistake {
            column: first.column,
            length: last.column + last.length - first.column,
            ..last
        }
    }

    /// A mistake at the next word, or behind the line's end.
    pub fn at_next(&self, what: impl Into<String>, allowed: impl Into<String>) -> Mistake {
        self.at(self.next, what, allowed)
    }

    fn at(&self, place: usize, what: impl Into<String>, allowed: impl Into<String>) -> Mistake {
        let end = |t: &Token| t.column + t.text.chars().count();
        let (column, length) = match self.all.get(place) {
            Some(token) => (token.column, end(token) - token.column),
            None => (self.all.last().map_or(0, |t| end(t) + 1), 1),
        };
        Mistake {
            line: self.line,
            column,
            length,
            what: what.into(),
            allowed: allowed.into(),
        }
    }

    /// What stands next, for a message.
    pub fn next_shown(&self) -> String {
        match self.peek() {
            Some(word) => format!("`{word}`"),
            None => "the end of the line".into(),
        }
    }
}

/// A number in digits.
pub fn number(text: &str) -> Option<u32> {
    let digits = text.bytes().all(|byte| byte.is_ascii_digit());
    digits.then(|| text.parse().ok()).flatten()
}

/// A number, or `5-9` for all from 5 to 9.
pub fn span(words: &Words, text: &str, allowed: &str) -> Parsed<RangeInclusive<u32>> {
    let above_0 = |text: &str| number(text).filter(|&n| n > 0);
    let ends = match text.split_once('-') {
        Some((first, last)) => above_0(first).zip(above_0(last)),
        None => above_0(text).map(|n| (n, n)),
    };
    match ends {
        Some((first, last)) if first <= last => Ok(first..=last),
        Some((first, last)) => {
            let what = format!("{first} to {last} is backwards");
            Err(words.at_last(what, allowed))
        }
        None if text.contains(',') => {
            let what = format!("`{text}`: between numbers stand blanks, no commas");
            Err(words.at_last(what, allowed))
        }
        None => Err(words.at_last(format!("`{text}` is no number here"), allowed)),
    }
}
