// The words of a line of text, and what is wrong with a line.
use std::ops::RangeInclusive;

pub struct Fault {
    pub line: usize,
    pub message: String,
}

pub struct Words<'a> {
    line: usize,
    rest: Vec<&'a str>,
}

// The first number and the last of `A..B`; both the same of `A`.
pub type Span = (i64, i64);

impl<'a> Words<'a> {
    pub fn new(line: usize, text: &'a str) -> Words<'a> {
        let text = text.split('#').next().unwrap_or("");
        Words { line, rest: text.split_whitespace().collect() }
    }

    pub fn fault<T>(&self, message: String) -> Result<T, Fault> {
        Err(Fault { line: self.line, message })
    }

    pub fn peek(&self) -> Option<&'a str> {
        self.rest.first().copied()
    }

    // The next word, which is `what`.
    pub fn word(&mut self, what: &str) -> Result<&'a str, Fault> {
        if self.rest.is_empty() {
            return self.fault(format!("{what} is missing"));
        }
        Ok(self.rest.remove(0))
    }

    // Takes the next word if it is this one.
    pub fn skip(&mut self, word: &str) -> bool {
        let same = self.peek() == Some(word);
        if same {
            self.rest.remove(0);
        }
        same
    }

    pub fn expect(&mut self, word: &str) -> Result<(), Fault> {
        if self.skip(word) {
            return Ok(());
        }
        match self.peek() {
            Some(other) => self.fault(format!("'{word}' is expected here and not '{other}'")),
            None => self.fault(format!("'{word}' is missing")),
        }
    }

    // All words before this one, or all that are left.
    pub fn before(&mut self, word: &str) -> Vec<&'a str> {
        let end = self.rest.iter().position(|w| *w == word).unwrap_or(self.rest.len());
        self.rest.drain(..end).collect()
    }

    pub fn end(&self) -> Result<(), Fault> {
        match self.peek() {
            Some(word) => self.fault(format!("nothing is expected here, but '{word}' is there")),
            None => Ok(()),
        }
    }

    pub fn parse(&self, what: &str, word: &str, range: RangeInclusive<i64>) -> Result<i64, Fault> {
        match word.parse::<i64>() {
            Ok(x) if range.contains(&x) => Ok(x),
            Ok(x) => self.fault(format!("{what} {x} is outside {} to {}", range.start(), range.end())),
            Err(_) => self.fault(format!("{what} '{word}' is not a whole number")),
        }
    }

    pub fn number(&mut self, what: &str, range: RangeInclusive<i64>) -> Result<i64, Fault> {
        let word = self.word(what)?;
        self.parse(what, word, range)
    }

    pub fn parse_span(&self, what: &str, word: &str, range: RangeInclusive<i64>) -> Result<Span, Fault> {
        let (first, last) = word.split_once("..").unwrap_or((word, word));
        Ok((self.parse(what, first, range.clone())?, self.parse(what, last, range)?))
    }

    pub fn span(&mut self, what: &str, range: RangeInclusive<i64>) -> Result<Span, Fault> {
        let word = self.word(what)?;
        self.parse_span(what, word, range)
    }

    // All words that are left, each two hex digits.
    pub fn bytes(&mut self) -> Result<Vec<u8>, Fault> {
        let mut bytes = Vec::new();
        for word in self.rest.drain(..) {
            match u8::from_str_radix(word, 16) {
                Ok(byte) if word.len() == 2 && !word.starts_with('+') => bytes.push(byte),
                _ => return Err(Fault { line: self.line, message: format!("'{word}' is not a byte of two hex digits") }),
            }
        }
        Ok(bytes)
    }
}
