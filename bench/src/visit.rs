//! The search for a test.

use crate::circuit::Circuit;
use crate::faults::{Cube, Fault};
use crate::simulation::{Plugged, Row, Verdict};
use crate::values::ValueKind;

#[derive(Clone, Copy, Debug, PartialEq, Eq)]
pub enum Answer {
    Spent { best: Option<Cube>, tries: u32 },
    Fewest { cube: Cube, tries: u32 },
    Redundant { tries: u32 },
}

impl Answer {
    pub fn tries(&self) -> u32 {
        match *self {
            Answer::Spent { tries, .. }
            | Answer::Fewest { tries, .. }
            | Answer::Redundant { tries } => tries,
        }
    }
}

/// A way to make visits, for any value kind.
pub trait Visits {
    /// The work rows, made once.
    type Rows<V: ValueKind>;

    fn rows<V: ValueKind>(circuit: &Circuit) -> Self::Rows<V>;

    /// A row for a single simulation.
    fn one_row<V: ValueKind>(rows: &mut Self::Rows<V>) -> &mut Row<V>;

    fn visit<V: ValueKind>(
        circuit: &Circuit,
        fault: Fault,
        budget: u32,
        rows: &mut Self::Rows<V>,
    ) -> Answer;
}

/// A further try was due, and none was left.
pub struct BudgetSpent;

/// What a visit has come to so far.
pub struct Progress {
    budget: u32,
    tries: u32,
    best: Option<Cube>,
    /// How many inputs the best cube drives; more than any cube drives, if there is none.
    best_driven: u32,
}

impl Progress {
    pub fn new(budget: u32) -> Self {
        Progress {
            budget,
            tries: 0,
            best: None,
            best_driven: u32::MAX,
        }
    }

    /// Whether a cube that drives so many inputs is passed over.
    #[inline]
    pub fn passes(&self, driven: u32) -> bool {
        driven >= self.best_driven
    }

    #[inline]
    pub fn count_try(&mut self) -> Result<(), BudgetSpent> {
        if self.tries == self.budget {
            return Err(BudgetSpent);
        }
        self.tries += 1;
        Ok(())
    }

    pub fn found(&mut self, cube: Cube, driven: u32) {
        self.best = Some(cube);
        self.best_driven = driven;
    }

    pub fn answer(self, outcome: Result<(), BudgetSpent>) -> Answer {
        let tries = self.tries;
        match (outcome, self.best) {
            (Err(BudgetSpent), best) => Answer::Spent { best, tries },
            (Ok(()), Some(cube)) => Answer::Fewest { cube, tries },
            (Ok(()), None) => Answer::Redundant { tries },
        }
    }
}

/// Visits that work out every line at every try.
pub struct WholeVisits;

impl Visits for WholeVisits {
    type Rows<V: ValueKind> = Row<V>;

    fn rows<V: ValueKind>(_circuit: &Circuit) -> Row<V> {
        Row::new()
    }

    fn one_row<V: ValueKind>(rows: &mut Row<V>) -> &mut Row<V> {
        rows
    }

    fn visit<V: ValueKind>(
        circuit: &Circuit,
        fault: Fault,
        budget: u32,
        rows: &mut Row<V>,
    ) -> Answer {
        let mut visit = WholeVisit {
            plugged: Plugged::new(circuit, fault),
            row: rows,
            progress: Progress::new(budget),
        };
        let outcome = visit.meet(Cube::nothing(), 0, 0);
        visit.progress.answer(outcome)
    }
}

struct WholeVisit<'work, V> {
    plugged: Plugged<'work>,
    row: &'work mut Row<V>,
    progress: Progress,
}

impl<V: ValueKind> WholeVisit<'_, V> {
    /// Visits a cube, and all below it: the inputs from `next` on lie above all that the cube drives.
    fn meet(&mut self, cube: Cube, next: usize, driven: u32) -> Result<(), BudgetSpent> {
        self.progress.count_try()?;
        match self.plugged.simulate(cube, self.row) {
            Verdict::Shows => self.progress.found(cube, driven),
            Verdict::Still => {}
            Verdict::Unsure => {
                for input in next..self.plugged.circuit.inputs() {
                    for level in [false, true] {
                        if self.progress.passes(driven + 1) {
                            return Ok(());
                        }
                        self.meet(cube.driving(input, level), input + 1, driven + 1)?;
                    }
                }
            }
        }
        Ok(())
    }
}
