//! Simulating a cube with a fault plugged.

use crate::circuit::{Circuit, MOST_LINES, Operator, Step};
use crate::faults::{Cube, Fault};
use crate::values::ValueKind;

#[derive(Clone, Copy, Debug, PartialEq, Eq)]
pub enum Verdict {
    Shows,
    Still,
    Unsure,
}

/// A value for each line. The length is fixed and line numbers are taken modulo it, so that no access needs a test.
#[derive(Clone)]
pub struct Row<V>(Box<[V; MOST_LINES]>);

impl<V: ValueKind> Row<V> {
    pub fn new() -> Self {
        Row(Box::new([V::UNKNOWN; MOST_LINES]))
    }

    #[inline(always)]
    pub fn get(&self, line: u16) -> V {
        self.0[usize::from(line) % MOST_LINES]
    }

    #[inline(always)]
    pub fn set(&mut self, line: u16, value: V) {
        self.0[usize::from(line) % MOST_LINES] = value;
    }

    pub fn copy_from(&mut self, other: &Self, lines: usize) {
        self.0[..lines].copy_from_slice(&other.0[..lines]);
    }

    #[inline]
    pub fn run(&mut self, steps: &[Step]) {
        for step in steps {
            let left = self.get(step.left);
            let right = self.get(step.right);
            let value = V::join(step.join, left, right);
            self.set(step.target, value);
        }
    }

    /// Works out the gate of a fault, with the fault.
    pub fn run_faulty(&mut self, circuit: &Circuit, fault: Fault) {
        let gate = circuit
            .gate(usize::from(fault.line))
            .expect("the fault is at a gate");
        let mut operands = circuit.operands(gate).iter().zip(1..).map(|(&line, pin)| {
            let value = self.get(line);
            if pin == fault.pin {
                value.stick(fault.level)
            } else {
                value
            }
        });
        let first = operands.next().expect("a gate has an operand");
        let value = match gate.operator {
            Operator::And => operands.fold(first, V::and),
            Operator::Nand => operands.fold(first, V::and).not(),
            Operator::Or => operands.fold(first, V::or),
            Operator::Nor => operands.fold(first, V::or).not(),
            Operator::Xor => operands.fold(first, V::xor),
            Operator::Xnor => operands.fold(first, V::xor).not(),
            Operator::Not => first.not(),
            Operator::Buf => first,
        };
        let value = if fault.pin == 0 {
            value.stick(fault.level)
        } else {
            value
        };
        self.set(fault.line, value);
    }

    /// Drives one input.
    #[inline(always)]
    pub fn drive(&mut self, input: usize, level: bool, fault: Fault) {
        let value = V::known(level);
        let stuck = usize::from(fault.line) == input;
        self.set(
            input as u16,
            if stuck {
                value.stick(fault.level)
            } else {
                value
            },
        );
    }

    pub fn verdict(&self, circuit: &Circuit) -> Verdict {
        let mut shows = false;
        let mut still = true;
        for &line in circuit.outputs() {
            let value = self.get(line);
            shows |= value.shows();
            still &= value.still();
        }
        match (shows, still) {
            (true, _) => Verdict::Shows,
            (false, true) => Verdict::Still,
            (false, false) => Verdict::Unsure,
        }
    }
}

impl<V: ValueKind> Default for Row<V> {
    fn default() -> Self {
        Row::new()
    }
}

/// Steps, parted at the gate of a fault.
#[derive(Clone, Copy)]
pub struct Parted<'steps> {
    before: &'steps [Step],
    has_faulty_gate: bool,
    after: &'steps [Step],
}

impl<'steps> Parted<'steps> {
    /// The targets of the steps must rise.
    pub fn new(steps: &'steps [Step], fault: Fault) -> Self {
        let first = steps.partition_point(|step| step.target < fault.line);
        let end = steps.partition_point(|step| step.target <= fault.line);
        Parted {
            before: &steps[..first],
            has_faulty_gate: first < end,
            after: &steps[end..],
        }
    }

    #[inline]
    pub fn run<V: ValueKind>(&self, circuit: &Circuit, fault: Fault, row: &mut Row<V>) {
        row.run(self.before);
        if self.has_faulty_gate {
            row.run_faulty(circuit, fault);
        }
        row.run(self.after);
    }
}

/// A circuit with a fault plugged.
#[derive(Clone, Copy)]
pub struct Plugged<'circuit> {
    pub circuit: &'circuit Circuit,
    pub fault: Fault,
    steps: Parted<'circuit>,
}

impl<'circuit> Plugged<'circuit> {
    pub fn new(circuit: &'circuit Circuit, fault: Fault) -> Self {
        Plugged {
            circuit,
            fault,
            steps: Parted::new(circuit.steps(), fault),
        }
    }

    /// Works out every line.
    pub fn simulate<V: ValueKind>(&self, cube: Cube, row: &mut Row<V>) -> Verdict {
        for input in 0..self.circuit.inputs() {
            let value = if cube.driven >> input & 1 != 0 {
                V::known(cube.level >> input & 1 != 0)
            } else {
                V::UNKNOWN
            };
            row.set(input as u16, value);
        }
        if usize::from(self.fault.line) < self.circuit.inputs() {
            let value = row.get(self.fault.line).stick(self.fault.level);
            row.set(self.fault.line, value);
        }
        self.steps.run(self.circuit, self.fault, row);
        row.verdict(self.circuit)
    }
}
