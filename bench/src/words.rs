//! The words of a text, with their places.

use crate::refusals::{Reason, Refusal};

const MOST_NAME_BYTES: usize = 8;
const MOST_DIGITS: usize = 7;

#[derive(Clone, Copy, Debug, PartialEq, Eq)]
pub enum Word<'text> {
    Open,
    Close,
    /// A word that has the shape of a name.
    Name(&'text [u8]),
    LineFeed,
    End,
}

/// What the bytes alone say, before the shape of a word is judged.
enum Raw<'text> {
    Open,
    Close,
    Run(&'text [u8]),
    LineFeed,
    End,
}

pub struct Words<'text> {
    text: &'text [u8],
    next: usize,
}

impl<'text> Words<'text> {
    pub fn new(text: &'text [u8], next: usize) -> Self {
        Words { text, next }
    }

    /// The place behind the last word that was read.
    pub fn place(&self) -> usize {
        self.next
    }

    fn raw(&mut self) -> Result<(Raw<'text>, usize), Refusal> {
        while self.text.get(self.next) == Some(&b' ') {
            self.next += 1;
        }
        let place = self.next;
        let Some(&byte) = self.text.get(place) else {
            return Ok((Raw::End, place));
        };
        let raw = match byte {
            b'(' => Raw::Open,
            b')' => Raw::Close,
            b'\n' => Raw::LineFeed,
            b'a'..=b'z' | b'0'..=b'9' => {
                let rest = &self.text[place..];
                let length = rest
                    .iter()
                    .position(|byte| !matches!(byte, b'a'..=b'z' | b'0'..=b'9'))
                    .unwrap_or(rest.len());
                self.next += length;
                return Ok((Raw::Run(&rest[..length]), place));
            }
            _ => return Err(Refusal::new(Reason::ForbiddenByte, place)),
        };
        self.next += 1;
        Ok((raw, place))
    }

    /// The next word where no number is due.
    pub fn word(&mut self) -> Result<(Word<'text>, usize), Refusal> {
        let (raw, place) = self.raw()?;
        let word = match raw {
            Raw::Open => Word::Open,
            Raw::Close => Word::Close,
            Raw::LineFeed => Word::LineFeed,
            Raw::End => Word::End,
            Raw::Run(run) if run.len() > MOST_NAME_BYTES || run[0].is_ascii_digit() => {
                return Err(Refusal::new(Reason::MalformedWord, place));
            }
            Raw::Run(run) => Word::Name(run),
        };
        Ok((word, place))
    }

    /// The next word where a number is due.
    pub fn number(&mut self) -> Result<u32, Refusal> {
        let (raw, place) = self.raw()?;
        match raw {
            Raw::Run(run) => parse_number(run).ok_or(Refusal::new(Reason::MalformedWord, place)),
            _ => Err(Refusal::new(Reason::Misplaced, place)),
        }
    }

    /// The next word where nothing but a word of a name's shape will do.
    pub fn name(&mut self) -> Result<(&'text [u8], usize), Refusal> {
        match self.word()? {
            (Word::Name(name), place) => Ok((name, place)),
            (_, place) => Err(Refusal::new(Reason::Misplaced, place)),
        }
    }

    /// Passes the one word that is due.
    pub fn expect(&mut self, due: Word<'static>) -> Result<(), Refusal> {
        match self.word()? {
            (word, _) if word == due => Ok(()),
            (_, place) => Err(Refusal::new(Reason::Misplaced, place)),
        }
    }

    /// Passes a line feed or the text's end.
    pub fn expect_line_end(&mut self) -> Result<(), Refusal> {
        match self.word()? {
            (Word::LineFeed | Word::End, _) => Ok(()),
            (_, place) => Err(Refusal::new(Reason::Misplaced, place)),
        }
    }
}

fn parse_number(run: &[u8]) -> Option<u32> {
    if run.len() > MOST_DIGITS || (run.len() > 1 && run[0] == b'0') {
        return None;
    }
    run.iter().try_fold(0, |number: u32, byte| match byte {
        b'0'..=b'9' => Some(number * 10 + u32::from(byte - b'0')),
        _ => None,
    })
}
