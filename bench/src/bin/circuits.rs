//! Writes the circuits that the programs are timed on into a folder: each with a kind, its stuck-at faults, a search for each
//! of them and a listing, as one input of the program. Every gate is a gate line, so that each line has a name.
//!
//!     circuits FOLDER

#[path = "../random.rs"]
mod random;

use random::Random;
use std::fmt::Write;
use std::path::Path;

const MOST_ENTRIES: usize = 512;

struct Gate {
    name: String,
    operator: &'static str,
    operands: Vec<String>,
}

#[derive(Default)]
struct Circuit {
    inputs: Vec<String>,
    gates: Vec<Gate>,
    outputs: Vec<String>,
}

impl Circuit {
    fn input(&mut self, name: impl Into<String>) -> String {
        let name = name.into();
        self.inputs.push(name.clone());
        name
    }

    /// The inputs of a number of so many bits, the lowest first.
    fn number(&mut self, name: &str, bits: usize) -> Vec<String> {
        (0..bits)
            .map(|bit| self.input(format!("{name}{bit}")))
            .collect()
    }

    fn gate(&mut self, operator: &'static str, operands: &[&String]) -> String {
        let name = format!("g{}", self.gates.len());
        self.named_gate(name, operator, operands)
    }

    fn named_gate(
        &mut self,
        name: impl Into<String>,
        operator: &'static str,
        operands: &[&String],
    ) -> String {
        let name = name.into();
        let operands = operands.iter().map(|&operand| operand.clone()).collect();
        self.gates.push(Gate {
            name: name.clone(),
            operator,
            operands,
        });
        name
    }

    fn output(&mut self, name: &str) {
        self.outputs.push(name.to_string());
    }

    /// Every stuck-at fault: line, pin and level.
    fn faults(&self) -> Vec<(&str, usize, usize)> {
        let inputs = self.inputs.iter().map(|name| (name, 0));
        let gates = self
            .gates
            .iter()
            .map(|gate| (&gate.name, gate.operands.len()));
        inputs
            .chain(gates)
            .flat_map(|(name, last)| (0..=last).map(move |pin| (name, pin)))
            .flat_map(|(name, pin)| [(name.as_str(), pin, 0), (name.as_str(), pin, 1)])
            .collect()
    }

    /// The circuit and its jobs. Of more faults than `most` only so many are entered, evenly spread.
    fn text(&self, kind: &str, most: usize, budget: usize) -> String {
        let mut text = format!("(inputs {})\n", self.inputs.join(" "));
        for Gate {
            name,
            operator,
            operands,
        } in &self.gates
        {
            writeln!(text, "(gate {name} ({operator} {}))", operands.join(" ")).unwrap();
        }
        writeln!(text, "(outputs {})\n(kind {kind})", self.outputs.join(" ")).unwrap();
        let faults = self.faults();
        let entries = faults.len().min(most).min(MOST_ENTRIES);
        for entry in 0..entries {
            let (line, pin, level) = faults[entry * faults.len() / entries];
            writeln!(text, "(fault {line} {pin} {level})").unwrap();
        }
        for entry in 0..entries {
            writeln!(text, "(search {entry} {budget})").unwrap();
        }
        text + "(list)\n"
    }
}

/// The smallest circuit of ISCAS-85.
fn c17() -> Circuit {
    let mut circuit = Circuit::default();
    let [n1, n2, n3, n6, n7] = ["n1", "n2", "n3", "n6", "n7"].map(|name| circuit.input(name));
    let n10 = circuit.named_gate("n10", "nand", &[&n1, &n3]);
    let n11 = circuit.named_gate("n11", "nand", &[&n3, &n6]);
    let n16 = circuit.named_gate("n16", "nand", &[&n2, &n11]);
    let n19 = circuit.named_gate("n19", "nand", &[&n11, &n7]);
    let n22 = circuit.named_gate("n22", "nand", &[&n10, &n16]);
    let n23 = circuit.named_gate("n23", "nand", &[&n16, &n19]);
    circuit.output(&n22);
    circuit.output(&n23);
    circuit
}

fn half_adder(circuit: &mut Circuit, a: &String, b: &String) -> (String, String) {
    let sum = circuit.gate("xor", &[a, b]);
    let carry = circuit.gate("and", &[a, b]);
    (sum, carry)
}

fn full_adder(circuit: &mut Circuit, a: &String, b: &String, c: &String) -> (String, String) {
    let half = circuit.gate("xor", &[a, b]);
    let sum = circuit.gate("xor", &[&half, c]);
    let both = circuit.gate("and", &[a, b]);
    let carried = circuit.gate("and", &[&half, c]);
    let carry = circuit.gate("or", &[&both, &carried]);
    (sum, carry)
}

/// Adds two numbers of so many bits and a carry, the carry rippling from the lowest bit to the highest.
fn ripple_adder(bits: usize) -> Circuit {
    let mut circuit = Circuit::default();
    let mut carry = circuit.input("c");
    let numbers: Vec<_> = (0..bits)
        .map(|bit| {
            (
                circuit.input(format!("a{bit}")),
                circuit.input(format!("b{bit}")),
            )
        })
        .collect();
    for (a, b) in &numbers {
        let (sum, next) = full_adder(&mut circuit, a, b, &carry);
        circuit.output(&sum);
        carry = next;
    }
    circuit.output(&carry);
    circuit
}

/// Says of two numbers of so many bits whether the first is less, whether they are equal, and whether it is greater.
fn comparator(bits: usize) -> Circuit {
    let mut circuit = Circuit::default();
    let first = circuit.number("a", bits);
    let second = circuit.number("b", bits);
    let mut less = None;
    let mut equal = None;
    for (a, b) in first.iter().zip(&second) {
        let not_a = circuit.gate("not", &[a]);
        let below = circuit.gate("and", &[&not_a, b]);
        let same = circuit.gate("xnor", &[a, b]);
        less = Some(match less {
            None => below,
            Some(lower) => {
                let kept = circuit.gate("and", &[&same, &lower]);
                circuit.gate("or", &[&below, &kept])
            }
        });
        equal = Some(match equal {
            None => same,
            Some(lower) => circuit.gate("and", &[&same, &lower]),
        });
    }
    let (Some(less), Some(equal)) = (less, equal) else {
        return circuit;
    };
    let greater = circuit.gate("nor", &[&less, &equal]);
    circuit.output(&less);
    circuit.output(&equal);
    circuit.output(&greater);
    circuit
}

/// Sixteen lines of data, of which four lines select one.
fn multiplexer() -> Circuit {
    let mut circuit = Circuit::default();
    let select: Vec<_> = (0..4).map(|bit| circuit.input(format!("s{bit}"))).collect();
    let data: Vec<_> = (0..16)
        .map(|number| circuit.input(format!("d{number}")))
        .collect();
    let inverse: Vec<_> = select
        .iter()
        .map(|line| circuit.gate("not", &[line]))
        .collect();
    let mut chosen = Vec::new();
    for (number, line) in data.iter().enumerate() {
        let mut operands = vec![line];
        for bit in 0..4 {
            operands.push(if number >> bit & 1 == 1 {
                &select[bit]
            } else {
                &inverse[bit]
            });
        }
        chosen.push(circuit.gate("and", &operands));
    }
    let (low, high) = chosen.split_at(8);
    let low = circuit.gate("or", &low.iter().collect::<Vec<_>>());
    let high = circuit.gate("or", &high.iter().collect::<Vec<_>>());
    let output = circuit.gate("or", &[&low, &high]);
    circuit.output(&output);
    circuit
}

/// The parity of 32 lines, as a balanced tree.
fn parity_tree() -> Circuit {
    let mut circuit = Circuit::default();
    let mut row: Vec<_> = (0..32)
        .map(|number| circuit.input(format!("a{number}")))
        .collect();
    while row.len() > 1 {
        row = row
            .chunks(2)
            .map(|pair| circuit.gate("xor", &[&pair[0], &pair[1]]))
            .collect();
    }
    circuit.output(&row[0]);
    circuit
}

/// A number of five bits drives one of 32 lines.
fn decoder() -> Circuit {
    let mut circuit = Circuit::default();
    let bits = circuit.number("a", 5);
    let inverse: Vec<_> = bits
        .iter()
        .map(|line| circuit.gate("not", &[line]))
        .collect();
    for number in 0..32 {
        let operands: Vec<_> = (0..5)
            .map(|bit| {
                if number >> bit & 1 == 1 {
                    &bits[bit]
                } else {
                    &inverse[bit]
                }
            })
            .collect();
        let output = circuit.gate("and", &operands);
        circuit.output(&output);
    }
    circuit
}

/// Multiplies two numbers of so many bits, by an array of adders.
fn multiplier(bits: usize) -> Circuit {
    let mut circuit = Circuit::default();
    let first = circuit.number("a", bits);
    let second = circuit.number("b", bits);
    let mut row: Vec<_> = first
        .iter()
        .map(|a| circuit.gate("and", &[a, &second[0]]))
        .collect();
    let mut above: Option<String> = None;
    for b in &second[1..] {
        let products: Vec<_> = first.iter().map(|a| circuit.gate("and", &[a, b])).collect();
        circuit.output(&row[0]);
        let mut upper = row[1..].to_vec();
        upper.extend(above.take());
        let mut carry: Option<String> = None;
        let mut sums = Vec::new();
        for (place, product) in products.iter().enumerate() {
            let operands: Vec<_> = [Some(product), upper.get(place), carry.as_ref()]
                .into_iter()
                .flatten()
                .collect();
            let (sum, next) = match operands[..] {
                [x, y, z] => full_adder(&mut circuit, x, y, z),
                [x, y] => half_adder(&mut circuit, x, y),
                _ => unreachable!(
                    "the lowest place has a product and an upper sum, each other place a carry too"
                ),
            };
            sums.push(sum);
            carry = Some(next);
        }
        row = sums;
        above = carry;
    }
    for line in &row {
        circuit.output(line);
    }
    if let Some(line) = &above {
        circuit.output(line);
    }
    circuit
}

/// Gates of random operators with two to four operands, half of them taken from the lines that nothing reads yet. The outputs
/// are the lines that nothing reads, 64 at most.
fn random_logic(inputs: usize, gates: usize, seed: u64) -> Circuit {
    let mut random = Random::new(seed);
    let mut circuit = Circuit::default();
    let mut lines: Vec<_> = (0..inputs)
        .map(|number| circuit.input(format!("i{number}")))
        .collect();
    let mut unread = lines.clone();
    let operators = [
        "and", "nand", "or", "nor", "and", "nand", "or", "nor", "xor", "xnor", "not",
    ];
    for _ in 0..gates {
        let operator = *random.pick(&operators);
        let count = if operator == "not" {
            1
        } else {
            random.between(2, 4).min(random.between(2, 4))
        };
        let mut operands: Vec<String> = Vec::new();
        while operands.len() < count {
            let operand = if !unread.is_empty() && random.percent(50) {
                let place = random.below(unread.len());
                unread.swap_remove(place)
            } else {
                random.pick(&lines).clone()
            };
            if !operands.contains(&operand) {
                operands.push(operand);
            }
        }
        unread.retain(|line| !operands.contains(line));
        let line = circuit.gate(operator, &operands.iter().collect::<Vec<_>>());
        lines.push(line.clone());
        unread.push(line);
    }
    unread.retain(|line| line.starts_with('g'));
    let first = unread.len().saturating_sub(64);
    for line in &unread[first..] {
        circuit.output(line);
    }
    circuit
}

fn main() -> std::io::Result<()> {
    let Some(folder) = std::env::args().nth(1) else {
        eprintln!("usage: circuits FOLDER");
        std::process::exit(2);
    };
    std::fs::create_dir_all(&folder)?;
    // The name of a file, its circuit, the kinds that it is written for, the most faults that are entered, and the budget of
    // each search.
    let all = ["five", "seven", "nine"];
    let measured: [(&str, Circuit, &[&str], usize, usize); 16] = [
        ("c17", c17(), &all, 512, 1_000_000),
        ("adder1", ripple_adder(1), &all, 512, 1_000_000),
        ("decoder5", decoder(), &all, 512, 1_000_000),
        ("multiplier4", multiplier(4), &all, 512, 1_000_000),
        ("adder8", ripple_adder(8), &all, 512, 15_000),
        ("comparator8", comparator(8), &["nine"], 512, 20_000),
        ("multiplexer16", multiplexer(), &["seven"], 512, 20_000),
        ("parity32", parity_tree(), &["five"], 512, 20_000),
        ("parity32full", parity_tree(), &["nine"], 8, 1_000_000),
        ("multiplier6", multiplier(6), &["seven"], 512, 6_000),
        ("adder31", ripple_adder(31), &["nine"], 512, 8_000),
        ("comparator32", comparator(32), &["five"], 512, 6_000),
        ("random20", random_logic(20, 100, 1), &["nine"], 512, 10_000),
        (
            "random20full",
            random_logic(20, 100, 1),
            &["seven"],
            5,
            1_000_000,
        ),
        ("random40", random_logic(40, 250, 2), &["seven"], 512, 2_500),
        ("random64", random_logic(64, 448, 3), &all, 512, 1_500),
    ];
    for (name, circuit, kinds, most, budget) in &measured {
        for kind in *kinds {
            let file = Path::new(&folder).join(format!("{name}-{kind}.txt"));
            std::fs::write(file, circuit.text(kind, *most, *budget))?;
        }
    }
    Ok(())
}
