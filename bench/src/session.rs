//! Job lines and the replies to them.

use crate::circuit::{Circuit, Name};
use crate::folder::{Folder, State};
use crate::reader;
use crate::refusals::{Reason, Refusal};
use crate::values::{Five, Nine, Seven, ValueKind};
use crate::visit::Visits;
use crate::words::{Word, Words};
use std::fmt;
use std::io::{self, Write};
use std::time::{Duration, Instant};

#[derive(Clone, Copy, Debug, PartialEq, Eq)]
enum Kind {
    Five,
    Seven,
    Nine,
}

impl Kind {
    fn named(word: &[u8]) -> Option<Self> {
        match word {
            b"five" => Some(Kind::Five),
            b"seven" => Some(Kind::Seven),
            b"nine" => Some(Kind::Nine),
            _ => None,
        }
    }

    fn word(self) -> &'static str {
        match self {
            Kind::Five => "five",
            Kind::Seven => "seven",
            Kind::Nine => "nine",
        }
    }
}

#[derive(Clone, Copy, Debug, PartialEq, Eq)]
enum Job {
    Kind(Kind),
    Fault { line: u16, pin: u32, level: u32 },
    Search { number: u32, budget: u32 },
    Cover { number: u32 },
    List,
}

/// The work rows of the kind that is chosen while the program runs.
enum Work<S: Visits> {
    Five(S::Rows<Five>),
    Seven(S::Rows<Seven>),
    Nine(S::Rows<Nine>),
}

/// All tries of granted searches, and the time inside searches.
#[derive(Clone, Copy, Debug, Default)]
pub struct Effort {
    pub tries: u64,
    pub time: Duration,
}

struct Session<S: Visits> {
    circuit: Circuit,
    folder: Folder,
    work: Option<Work<S>>,
    effort: Effort,
}

/// Reads a circuit and jobs from the text, and writes the replies.
pub fn answer_all<S: Visits>(text: &[u8], replies: &mut impl Write) -> io::Result<Effort> {
    let (circuit, mut start) = match reader::read(text) {
        Ok(read) => read,
        Err(refusal) => {
            writeln!(replies, "{refusal}")?;
            return Ok(Effort::default());
        }
    };
    let mut session = Session::<S> {
        circuit,
        folder: Folder::default(),
        work: None,
        effort: Effort::default(),
    };
    while text[start..].iter().any(|&byte| byte != b' ') {
        let mut words = Words::new(text, start);
        let result = session.read_job(&mut words).and_then(|job| {
            session
                .perform(job, replies)
                .map_err(|reason| Refusal::new(reason, start))
        });
        start = match result {
            Ok(written) => {
                written?;
                words.place()
            }
            Err(refusal) => {
                writeln!(replies, "{refusal}")?;
                text[refusal.place..]
                    .iter()
                    .position(|&byte| byte == b'\n')
                    .map_or(text.len(), |length| refusal.place + length + 1)
            }
        };
    }
    Ok(session.effort)
}

impl<S: Visits> Session<S> {
    /// Reads a job line to its end.
    fn read_job(&self, words: &mut Words<'_>) -> Result<Job, Refusal> {
        words.expect(Word::Open)?;
        let (head, place) = words.name()?;
        let chosen = self.work.is_some();
        match head {
            b"kind" if !chosen => {}
            b"fault" | b"search" | b"cover" | b"list" if chosen => {}
            b"kind" | b"fault" | b"search" | b"cover" | b"list" => {
                return Err(Refusal::new(Reason::Misplaced, place));
            }
            _ => return Err(Refusal::new(Reason::UnknownWord, place)),
        }
        let job = match head {
            b"kind" => {
                let (word, place) = words.name()?;
                Job::Kind(Kind::named(word).ok_or(Refusal::new(Reason::UnknownWord, place))?)
            }
            b"fault" => {
                let (name, place) = words.name()?;
                Job::Fault {
                    line: self
                        .circuit
                        .line_named(Name::new(name))
                        .ok_or(Refusal::new(Reason::UnknownName, place))?,
                    pin: words.number()?,
                    level: words.number()?,
                }
            }
            b"search" => Job::Search {
                number: words.number()?,
                budget: words.number()?,
            },
            b"cover" => Job::Cover {
                number: words.number()?,
            },
            _ => Job::List,
        };
        words.expect(Word::Close)?;
        words.expect_line_end()?;
        Ok(job)
    }

    /// Does a job, and writes the reply unless the folder refuses.
    fn perform(&mut self, job: Job, replies: &mut impl Write) -> Result<io::Result<()>, Reason> {
        Ok(match job {
            Job::Kind(kind) => {
                self.work = Some(match kind {
                    Kind::Five => Work::Five(S::rows(&self.circuit)),
                    Kind::Seven => Work::Seven(S::rows(&self.circuit)),
                    Kind::Nine => Work::Nine(S::rows(&self.circuit)),
                });
                writeln!(replies, "(kind {})", kind.word())
            }
            Job::Fault { line, pin, level } => {
                let number = self.folder.enter(&self.circuit, line, pin, level)?;
                writeln!(replies, "(entry {number})")
            }
            Job::Search { number, budget } => {
                let state = match self.work.as_mut().expect("a kind was chosen") {
                    Work::Five(rows) => search::<S, Five>(
                        &self.circuit,
                        &mut self.folder,
                        number,
                        budget,
                        rows,
                        &mut self.effort,
                    ),
                    Work::Seven(rows) => search::<S, Seven>(
                        &self.circuit,
                        &mut self.folder,
                        number,
                        budget,
                        rows,
                        &mut self.effort,
                    ),
                    Work::Nine(rows) => search::<S, Nine>(
                        &self.circuit,
                        &mut self.folder,
                        number,
                        budget,
                        rows,
                        &mut self.effort,
                    ),
                }?;
                writeln!(replies, "({})", self.told(&state))
            }
            Job::Cover { number } => {
                let circuit = &self.circuit;
                let folder = &mut self.folder;
                let marked = match self.work.as_mut().expect("a kind was chosen") {
                    Work::Five(rows) => folder.cover(circuit, number, S::one_row(rows)),
                    Work::Seven(rows) => folder.cover(circuit, number, S::one_row(rows)),
                    Work::Nine(rows) => folder.cover(circuit, number, S::one_row(rows)),
                }?;
                writeln!(replies, "(covered {marked})")
            }
            Job::List => self.list(replies),
        })
    }

    fn list(&self, replies: &mut impl Write) -> io::Result<()> {
        let entries = self.folder.entries();
        for (number, entry) in entries.iter().enumerate() {
            write!(replies, "(entry {number} ")?;
            match self.circuit.name(usize::from(entry.fault.line)) {
                Some(name) => write!(replies, "{name}")?,
                None => write!(replies, "none")?,
            }
            writeln!(
                replies,
                " {} {} {})",
                entry.fault.pin,
                u8::from(entry.fault.level),
                self.told(&entry.state)
            )?;
        }
        let tested = entries
            .iter()
            .filter(|entry| entry.state.is_tested())
            .count();
        writeln!(replies, "(coverage {tested} {})", entries.len())
    }

    /// State, cube and count as they are written.
    fn told<'state>(&self, state: &'state State) -> Told<'state> {
        Told {
            state,
            inputs: self.circuit.inputs(),
        }
    }
}

fn search<S: Visits, V: ValueKind>(
    circuit: &Circuit,
    folder: &mut Folder,
    number: u32,
    budget: u32,
    rows: &mut S::Rows<V>,
    effort: &mut Effort,
) -> Result<State, Reason> {
    folder.search(number, budget, |fault| {
        let start = Instant::now();
        let answer = S::visit(circuit, fault, budget, rows);
        effort.time += start.elapsed();
        effort.tries += u64::from(answer.tries());
        answer
    })
}

struct Told<'state> {
    state: &'state State,
    inputs: usize,
}

impl fmt::Display for Told<'_> {
    fn fmt(&self, formatter: &mut fmt::Formatter<'_>) -> fmt::Result {
        formatter.write_str(self.state.word())?;
        match self.state.cube() {
            Some(cube) => write!(formatter, " {} ", cube.letters(self.inputs))?,
            None => formatter.write_str(" none ")?,
        }
        write!(formatter, "{}", self.state.count())
    }
}
