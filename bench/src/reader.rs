//! Reading a circuit from its text.

use crate::circuit::{Circuit, MOST_INPUTS, MOST_LINES, MOST_OUTPUTS, Name, Operator};
use crate::refusals::{Reason, Refusal};
use crate::words::{Word, Words};

pub const MOST_BYTES: usize = 65_536;
const MOST_BRACKETS: usize = 8;

/// The circuit that the text begins with, and the place of what follows it.
pub fn read(text: &[u8]) -> Result<(Circuit, usize), Refusal> {
    if text.len() > MOST_BYTES {
        return Err(Refusal::new(Reason::LimitPassed, MOST_BYTES));
    }
    let mut reader = Reader {
        words: Words::new(text, 0),
        circuit: Circuit::new(),
        operands: Vec::new(),
    };
    reader.inputs_line()?;
    while reader.gate_line()? {}
    reader.outputs()?;
    Ok((reader.circuit, reader.words.place()))
}

struct Reader<'text> {
    words: Words<'text>,
    circuit: Circuit,
    /// The operands so far of all gates that are open.
    operands: Vec<u16>,
}

impl Reader<'_> {
    fn begin_line(&mut self) -> Result<(), Refusal> {
        match self.words.word()? {
            (Word::Open, _) => Ok(()),
            (Word::End, place) => Err(Refusal::new(Reason::EndsEarly, place)),
            (_, place) => Err(Refusal::new(Reason::Misplaced, place)),
        }
    }

    fn end_line(&mut self) -> Result<(), Refusal> {
        match self.words.word()? {
            (Word::LineFeed, _) => Ok(()),
            (Word::End, place) => Err(Refusal::new(Reason::EndsEarly, place)),
            (_, place) => Err(Refusal::new(Reason::Misplaced, place)),
        }
    }

    fn inputs_line(&mut self) -> Result<(), Refusal> {
        self.begin_line()?;
        match self.words.name()? {
            (b"inputs", _) => {}
            (b"gate" | b"outputs", place) => return Err(Refusal::new(Reason::Misplaced, place)),
            (_, place) => return Err(Refusal::new(Reason::UnknownWord, place)),
        }
        loop {
            match self.words.word()? {
                (Word::Name(bytes), place) => {
                    let name = self.free_name(bytes, place)?;
                    if self.circuit.inputs() == MOST_INPUTS {
                        return Err(Refusal::new(Reason::LimitPassed, place));
                    }
                    self.circuit.add_input(name);
                }
                (Word::Close, _) if self.circuit.inputs() > 0 => break,
                (_, place) => return Err(Refusal::new(Reason::Misplaced, place)),
            }
        }
        self.end_line()
    }

    /// Reads a gate line, or the head of the outputs line. The answer is whether it was a gate line.
    fn gate_line(&mut self) -> Result<bool, Refusal> {
        self.begin_line()?;
        match self.words.name()? {
            (b"gate", _) => {}
            (b"outputs", _) => return Ok(false),
            (b"inputs", place) => return Err(Refusal::new(Reason::Misplaced, place)),
            (_, place) => return Err(Refusal::new(Reason::UnknownWord, place)),
        }
        let (bytes, place) = self.words.name()?;
        let name = self.free_name(bytes, place)?;
        self.words.expect(Word::Open)?;
        let line = self.gate(2)?;
        self.words.expect(Word::Close)?;
        self.end_line()?;
        self.circuit.name_line(usize::from(line), name);
        Ok(true)
    }

    fn free_name(&self, bytes: &[u8], place: usize) -> Result<Name, Refusal> {
        let name = Name::new(bytes);
        match self.circuit.line_named(name) {
            Some(_) => Err(Refusal::new(Reason::NameTaken, place)),
            None => Ok(name),
        }
    }

    fn known_line(&self, bytes: &[u8], place: usize) -> Result<u16, Refusal> {
        self.circuit
            .line_named(Name::new(bytes))
            .ok_or(Refusal::new(Reason::UnknownName, place))
    }

    /// Reads a gate from behind its opening bracket, which is the last of `open` brackets, and answers its line.
    fn gate(&mut self, open: usize) -> Result<u16, Refusal> {
        let operator = match self.words.word()? {
            (Word::Name(bytes), place) => {
                Operator::named(bytes).ok_or(Refusal::new(Reason::UnknownWord, place))?
            }
            (Word::Open, place) if open == MOST_BRACKETS => {
                return Err(Refusal::new(Reason::BracketsTooDeep, place));
            }
            (_, place) => return Err(Refusal::new(Reason::Misplaced, place)),
        };
        let first = self.operands.len();
        loop {
            let (word, place) = self.words.word()?;
            let count = self.operands.len() - first;
            if word == Word::Open && open == MOST_BRACKETS {
                return Err(Refusal::new(Reason::BracketsTooDeep, place));
            }
            let wrong_count = match word {
                Word::Open | Word::Name(_) => count == operator.most(),
                Word::Close => count < operator.fewest(),
                Word::LineFeed | Word::End => false,
            };
            if wrong_count {
                return Err(Refusal::new(Reason::WrongOperandCount, place));
            }
            let operand = match word {
                Word::Open => self.gate(open + 1)?,
                Word::Name(bytes) => self.known_line(bytes, place)?,
                Word::Close => {
                    if self.circuit.lines() == MOST_LINES {
                        return Err(Refusal::new(Reason::LimitPassed, place));
                    }
                    let line = self.circuit.add_gate(operator, &self.operands[first..]);
                    self.operands.truncate(first);
                    return Ok(line);
                }
                Word::LineFeed | Word::End => return Err(Refusal::new(Reason::Misplaced, place)),
            };
            self.operands.push(operand);
        }
    }

    /// Reads the outputs line from behind its head.
    fn outputs(&mut self) -> Result<(), Refusal> {
        loop {
            match self.words.word()? {
                (Word::Name(bytes), place) => {
                    let line = self.known_line(bytes, place)?;
                    if self.circuit.outputs().contains(&line) {
                        return Err(Refusal::new(Reason::NameTaken, place));
                    }
                    if self.circuit.outputs().len() == MOST_OUTPUTS {
                        return Err(Refusal::new(Reason::LimitPassed, place));
                    }
                    self.circuit.add_output(line);
                }
                (Word::Close, _) if !self.circuit.outputs().is_empty() => break,
                (_, place) => return Err(Refusal::new(Reason::Misplaced, place)),
            }
        }
        self.words.expect_line_end()
    }
}
