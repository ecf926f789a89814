//! Circuits in flat vectors.

use std::collections::HashMap;
use std::fmt;

pub const MOST_INPUTS: usize = 64;
pub const MOST_LINES: usize = 512;
pub const MOST_OUTPUTS: usize = 64;

/// The bytes of a name, with zeros behind them.
#[derive(Clone, Copy, Debug, PartialEq, Eq, Hash)]
pub struct Name([u8; 8]);

impl Name {
    /// The name of 1 to 8 bytes.
    pub fn new(bytes: &[u8]) -> Self {
        let mut name = [0; 8];
        name[..bytes.len()].copy_from_slice(bytes);
        Name(name)
    }
}

impl fmt::Display for Name {
    fn fmt(&self, formatter: &mut fmt::Formatter<'_>) -> fmt::Result {
        self.0
            .iter()
            .take_while(|&&byte| byte != 0)
            .try_for_each(|&byte| fmt::Write::write_char(formatter, char::from(byte)))
    }
}

#[derive(Clone, Copy, Debug, PartialEq, Eq)]
pub enum Operator {
    And,
    Nand,
    Or,
    Nor,
    Xor,
    Xnor,
    Not,
    Buf,
}

impl Operator {
    pub fn named(word: &[u8]) -> Option<Self> {
        Some(match word {
            b"and" => Operator::And,
            b"nand" => Operator::Nand,
            b"or" => Operator::Or,
            b"nor" => Operator::Nor,
            b"xor" => Operator::Xor,
            b"xnor" => Operator::Xnor,
            b"not" => Operator::Not,
            b"buf" => Operator::Buf,
            _ => return None,
        })
    }

    pub fn fewest(self) -> usize {
        match self {
            Operator::Not | Operator::Buf => 1,
            _ => 2,
        }
    }

    pub fn most(self) -> usize {
        match self {
            Operator::Not | Operator::Buf => 1,
            _ => 8,
        }
    }
}

/// How a step joins its two operands.
#[derive(Clone, Copy, Debug, PartialEq, Eq)]
#[repr(u8)]
pub enum Join {
    And,
    Nand,
    Or,
    Nor,
    Xor,
    Xnor,
}

/// A join of two lines. A gate of more operands is a chain of steps that all write the gate's line, and the last one negates. A
/// gate of one operand joins it with itself, which changes no value of any kind.
#[derive(Clone, Copy, Debug)]
pub struct Step {
    pub join: Join,
    pub left: u16,
    pub right: u16,
    pub target: u16,
}

#[derive(Clone, Copy, Debug)]
pub struct Gate {
    pub operator: Operator,
    first_operand: u16,
    operand_count: u8,
}

pub struct Circuit {
    inputs: usize,
    gates: Vec<Gate>,
    operands: Vec<u16>,
    steps: Vec<Step>,
    outputs: Vec<u16>,
    names: Vec<Option<Name>>,
    lines_by_name: HashMap<Name, u16>,
}

impl Circuit {
    /// A circuit without any line.
    pub fn new() -> Self {
        Circuit {
            inputs: 0,
            gates: Vec::new(),
            operands: Vec::new(),
            steps: Vec::new(),
            outputs: Vec::new(),
            names: Vec::new(),
            lines_by_name: HashMap::new(),
        }
    }

    pub fn inputs(&self) -> usize {
        self.inputs
    }

    pub fn lines(&self) -> usize {
        self.names.len()
    }

    pub fn outputs(&self) -> &[u16] {
        &self.outputs
    }

    pub fn steps(&self) -> &[Step] {
        &self.steps
    }

    pub fn name(&self, line: usize) -> Option<Name> {
        self.names[line]
    }

    pub fn line_named(&self, name: Name) -> Option<u16> {
        self.lines_by_name.get(&name).copied()
    }

    /// The gate that drives a line, if the line is no input.
    pub fn gate(&self, line: usize) -> Option<Gate> {
        Some(self.gates[line.checked_sub(self.inputs)?])
    }

    pub fn operands(&self, gate: Gate) -> &[u16] {
        let first = usize::from(gate.first_operand);
        &self.operands[first..first + usize::from(gate.operand_count)]
    }

    /// How many pins a line has besides pin 0.
    pub fn operand_count(&self, line: usize) -> usize {
        self.gate(line)
            .map_or(0, |gate| usize::from(gate.operand_count))
    }

    pub fn add_input(&mut self, name: Name) {
        debug_assert!(self.gates.is_empty());
        self.inputs += 1;
        self.names.push(None);
        self.name_line(self.names.len() - 1, name);
    }

    /// Adds a gate without a name, and answers its line.
    pub fn add_gate(&mut self, operator: Operator, operands: &[u16]) -> u16 {
        let line = self.names.len() as u16;
        self.gates.push(Gate {
            operator,
            first_operand: self.operands.len() as u16,
            operand_count: operands.len() as u8,
        });
        self.operands.extend_from_slice(operands);
        self.names.push(None);

        let (join, last) = match operator {
            Operator::And => (Join::And, Join::And),
            Operator::Nand => (Join::And, Join::Nand),
            Operator::Or => (Join::Or, Join::Or),
            Operator::Nor => (Join::Or, Join::Nor),
            Operator::Xor => (Join::Xor, Join::Xor),
            Operator::Xnor => (Join::Xor, Join::Xnor),
            Operator::Not => (Join::And, Join::Nand),
            Operator::Buf => (Join::And, Join::And),
        };
        let (first, rest) = match operands {
            [only] => (*only, operands),
            [first, rest @ ..] => (*first, rest),
            [] => unreachable!("a gate has an operand"),
        };
        for (position, &right) in rest.iter().enumerate() {
            self.steps.push(Step {
                join: if position + 1 == rest.len() {
                    last
                } else {
                    join
                },
                left: if position == 0 { first } else { line },
                right,
                target: line,
            });
        }
        line
    }

    /// Gives a line its name, from which on it is known.
    pub fn name_line(&mut self, line: usize, name: Name) {
        self.names[line] = Some(name);
        self.lines_by_name.insert(name, line as u16);
    }

    pub fn add_output(&mut self, line: u16) {
        self.outputs.push(line);
    }
}

impl Default for Circuit {
    fn default() -> Self {
        Circuit::new()
    }
}
