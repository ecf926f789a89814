//! The table of entries.

use crate::circuit::Circuit;
use crate::faults::{Cube, Fault};
use crate::refusals::Reason;
use crate::simulation::{Plugged, Row, Verdict};
use crate::values::ValueKind;
use crate::visit::Answer;

const MOST_ENTRIES: usize = 512;
const MOST_TRIES: u32 = 1_000_000;

#[derive(Clone, Copy, Debug, PartialEq, Eq)]
pub enum State {
    Open,
    Spent { cube: Option<Cube>, tries: u32 },
    Fewest { cube: Cube, tries: u32 },
    Redundant { tries: u32 },
    Covered { by: usize },
}

impl State {
    pub fn word(&self) -> &'static str {
        match self {
            State::Open => "open",
            State::Spent { .. } => "spent",
            State::Fewest { .. } => "fewest",
            State::Redundant { .. } => "redundant",
            State::Covered { .. } => "covered",
        }
    }

    pub fn cube(&self) -> Option<Cube> {
        match *self {
            State::Spent { cube, .. } => cube,
            State::Fewest { cube, .. } => Some(cube),
            State::Open | State::Redundant { .. } | State::Covered { .. } => None,
        }
    }

    pub fn count(&self) -> usize {
        match *self {
            State::Open => 0,
            State::Spent { tries, .. }
            | State::Fewest { tries, .. }
            | State::Redundant { tries } => tries as usize,
            State::Covered { by } => by,
        }
    }

    pub fn is_settled(&self) -> bool {
        !matches!(self, State::Open | State::Spent { .. })
    }

    /// Whether a known cube detects the entry's fault.
    pub fn is_tested(&self) -> bool {
        self.cube().is_some() || matches!(self, State::Covered { .. })
    }
}

impl From<Answer> for State {
    fn from(answer: Answer) -> Self {
        match answer {
            Answer::Spent { best, tries } => State::Spent { cube: best, tries },
            Answer::Fewest { cube, tries } => State::Fewest { cube, tries },
            Answer::Redundant { tries } => State::Redundant { tries },
        }
    }
}

#[derive(Clone, Copy, Debug)]
pub struct Entry {
    pub fault: Fault,
    pub state: State,
}

#[derive(Default)]
pub struct Folder {
    entries: Vec<Entry>,
}

impl Folder {
    pub fn entries(&self) -> &[Entry] {
        &self.entries
    }

    pub fn enter(
        &mut self,
        circuit: &Circuit,
        line: u16,
        pin: u32,
        level: u32,
    ) -> Result<usize, Reason> {
        if pin as usize > circuit.operand_count(usize::from(line)) {
            return Err(Reason::NoSuchPin);
        }
        if level > 1 {
            return Err(Reason::LevelAboveOne);
        }
        let fault = Fault {
            line,
            pin: pin as u8,
            level: level == 1,
        };
        if self.entries.iter().any(|entry| entry.fault == fault) {
            return Err(Reason::AlreadyEntered);
        }
        if self.entries.len() == MOST_ENTRIES {
            return Err(Reason::FolderFull);
        }
        self.entries.push(Entry {
            fault,
            state: State::Open,
        });
        Ok(self.entries.len() - 1)
    }

    /// Files what `visit` answers for the entry's fault.
    pub fn search(
        &mut self,
        number: u32,
        budget: u32,
        visit: impl FnOnce(Fault) -> Answer,
    ) -> Result<State, Reason> {
        let entry = self
            .entries
            .get_mut(number as usize)
            .ok_or(Reason::NoSuchEntry)?;
        if entry.state.is_settled() {
            return Err(Reason::EntrySettled);
        }
        if !(1..=MOST_TRIES).contains(&budget) {
            return Err(Reason::BudgetOutOfRange);
        }
        if let State::Spent { tries, .. } = entry.state
            && budget <= tries
        {
            return Err(Reason::BudgetNotAbove);
        }
        entry.state = visit(entry.fault).into();
        Ok(entry.state)
    }

    pub fn cover<V: ValueKind>(
        &mut self,
        circuit: &Circuit,
        number: u32,
        row: &mut Row<V>,
    ) -> Result<usize, Reason> {
        let by = number as usize;
        let State::Fewest { cube, .. } = self.entries.get(by).ok_or(Reason::NoSuchEntry)?.state
        else {
            return Err(Reason::EntryNotFewest);
        };
        let mut marked = 0;
        for entry in &mut self.entries {
            if !entry.state.is_settled()
                && Plugged::new(circuit, entry.fault).simulate(cube, row) == Verdict::Shows
            {
                entry.state = State::Covered { by };
                marked += 1;
            }
        }
        Ok(marked)
    }
}
