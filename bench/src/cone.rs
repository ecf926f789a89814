//! Visits that work out again, at each try, only the lines that the newly driven input can reach.

use crate::circuit::{Circuit, Step};
use crate::faults::{Cube, Fault};
use crate::simulation::{Parted, Plugged, Row, Verdict};
use crate::values::ValueKind;
use crate::visit::{Answer, BudgetSpent, Progress, Visits};

pub struct ConeVisits;

/// A row for each number of driven inputs, and for each input the steps of the gates that it can reach.
pub struct ConeRows<V> {
    rows: Vec<Row<V>>,
    cones: Vec<Vec<Step>>,
}

impl Visits for ConeVisits {
    type Rows<V: ValueKind> = ConeRows<V>;

    fn rows<V: ValueKind>(circuit: &Circuit) -> ConeRows<V> {
        ConeRows {
            rows: vec![Row::new(); circuit.inputs() + 1],
            cones: (0..circuit.inputs())
                .map(|input| cone(circuit, input))
                .collect(),
        }
    }

    fn one_row<V: ValueKind>(rows: &mut ConeRows<V>) -> &mut Row<V> {
        &mut rows.rows[0]
    }

    fn visit<V: ValueKind>(
        circuit: &Circuit,
        fault: Fault,
        budget: u32,
        rows: &mut ConeRows<V>,
    ) -> Answer {
        let plugged = Plugged::new(circuit, fault);
        let mut visit = ConeVisit {
            plugged,
            cones: rows
                .cones
                .iter()
                .map(|cone| Parted::new(cone, fault))
                .collect(),
            progress: Progress::new(budget),
        };
        let outcome = visit.begin(&mut rows.rows);
        visit.progress.answer(outcome)
    }
}

/// The steps of the gates that an input can reach, in their order.
fn cone(circuit: &Circuit, input: usize) -> Vec<Step> {
    let mut reached = vec![false; circuit.lines()];
    reached[input] = true;
    for line in circuit.inputs()..circuit.lines() {
        let gate = circuit.gate(line).expect("the line is no input");
        reached[line] = circuit
            .operands(gate)
            .iter()
            .any(|&operand| reached[usize::from(operand)]);
    }
    circuit
        .steps()
        .iter()
        .filter(|step| reached[usize::from(step.target)])
        .copied()
        .collect()
}

struct ConeVisit<'work> {
    plugged: Plugged<'work>,
    cones: Vec<Parted<'work>>,
    progress: Progress,
}

impl ConeVisit<'_> {
    fn begin<V: ValueKind>(&mut self, rows: &mut [Row<V>]) -> Result<(), BudgetSpent> {
        self.progress.count_try()?;
        let cube = Cube::nothing();
        let verdict = self.plugged.simulate(cube, &mut rows[0]);
        self.go_on(verdict, rows, cube, 0, 0)
    }

    /// Goes on from a cube that was simulated in the first of the rows.
    fn go_on<V: ValueKind>(
        &mut self,
        verdict: Verdict,
        rows: &mut [Row<V>],
        cube: Cube,
        next: usize,
        driven: u32,
    ) -> Result<(), BudgetSpent> {
        match verdict {
            Verdict::Shows => {
                self.progress.found(cube, driven);
                Ok(())
            }
            Verdict::Still => Ok(()),
            Verdict::Unsure => self.go_below(rows, cube, next, driven),
        }
    }

    fn go_below<V: ValueKind>(
        &mut self,
        rows: &mut [Row<V>],
        cube: Cube,
        next: usize,
        driven: u32,
    ) -> Result<(), BudgetSpent> {
        let circuit = self.plugged.circuit;
        let fault = self.plugged.fault;
        let [row, below @ ..] = rows else {
            unreachable!("there is a row for each number of driven inputs");
        };
        for input in next..circuit.inputs() {
            if self.progress.passes(driven + 1) {
                return Ok(());
            }
            // Both levels of the input leave all lines alone that it cannot reach.
            below[0].copy_from(row, circuit.lines());
            for level in [false, true] {
                if self.progress.passes(driven + 1) {
                    return Ok(());
                }
                self.progress.count_try()?;
                below[0].drive(input, level, fault);
                self.cones[input].run(circuit, fault, &mut below[0]);
                let verdict = below[0].verdict(circuit);
                self.go_on(
                    verdict,
                    below,
                    cube.driving(input, level),
                    input + 1,
                    driven + 1,
                )?;
            }
        }
        Ok(())
    }
}
