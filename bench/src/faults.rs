//! Faults and cubes.

use std::fmt;

#[derive(Clone, Copy, Debug, PartialEq, Eq)]
pub struct Fault {
    pub line: u16,
    /// 0 is the line itself, and k is the k-th operand of its gate.
    pub pin: u8,
    pub level: bool,
}

/// Bit i of each word is for input i. A level is 0 where the input is not driven.
#[derive(Clone, Copy, Debug, Default, PartialEq, Eq)]
pub struct Cube {
    pub driven: u64,
    pub level: u64,
}

impl Cube {
    pub fn nothing() -> Self {
        Cube::default()
    }

    /// The cube with one more input driven.
    pub fn driving(self, input: usize, level: bool) -> Self {
        Cube {
            driven: self.driven | 1 << input,
            level: self.level | u64::from(level) << input,
        }
    }

    /// A letter for each of the first inputs.
    pub fn letters(self, inputs: usize) -> Letters {
        Letters { cube: self, inputs }
    }
}

pub struct Letters {
    cube: Cube,
    inputs: usize,
}

impl fmt::Display for Letters {
    fn fmt(&self, formatter: &mut fmt::Formatter<'_>) -> fmt::Result {
        for input in 0..self.inputs {
            let letter = match (self.cube.driven >> input & 1, self.cube.level >> input & 1) {
                (0, _) => "x",
                (_, 0) => "0",
                _ => "1",
            };
            formatter.write_str(letter)?;
        }
        Ok(())
    }
}
