//! Writes generated inputs of the program into a folder, a file for each: valid ones, ones that stand at a limit or pass it, and
//! damaged ones. The same seed gives the same texts.
//!
//!     texts FOLDER [COUNT] [SEED]

#[path = "../random.rs"]
mod random;

use random::Random;
use std::path::Path;

const MOST_BYTES: usize = 65_536;
const MOST_INPUTS: usize = 64;
const MOST_LINES: usize = 512;
const MOST_OUTPUTS: usize = 64;
const MOST_OPERANDS: usize = 8;
const MOST_OPEN: usize = 8;
const MOST_ENTRIES: usize = 512;
const MOST_TRIES: usize = 1_000_000;

const JOINING: [&str; 6] = ["and", "nand", "or", "nor", "xor", "xnor"];
const SINGLE: [&str; 2] = ["not", "buf"];
const KINDS: [&str; 3] = ["five", "seven", "nine"];
const HEADS: [&str; 8] = [
    "inputs", "gate", "outputs", "kind", "fault", "search", "cover", "list",
];

/// Names that mean something elsewhere, or nearly do.
const TELLING_NAMES: [&str; 40] = [
    "inputs", "gate", "outputs", "kind", "fault", "search", "cover", "list", "and", "nand", "or",
    "nor", "xor", "xnor", "not", "buf", "five", "seven", "nine", "none", "open", "spent", "fewest",
    "covered", "entry", "coverage", "refused", "text", "form", "circuit", "folder", "x", "x0",
    "x1", "xx", "input", "gates", "an", "andd", "redundan",
];

/// Words that are wrong in most places, or in all.
const STRANGE_WORDS: [&str; 30] = [
    "0",
    "1",
    "2",
    "7",
    "9",
    "10",
    "00",
    "01",
    "007",
    "512",
    "513",
    "1000000",
    "1000001",
    "9999999",
    "10000000",
    "99999999",
    "123456789",
    "4294967296",
    "1a",
    "0x1",
    "2and",
    "abcdefgh",
    "abcdefghi",
    "longername",
    "outputsx",
    "redundant",
    "eight",
    "nxor",
    "seek",
    "zz",
];

/// Bytes that a text may not have, many of them just outside the allowed ranges.
const FORBIDDEN: [u8; 24] = [
    b'A', b'Z', b'\t', b'\r', 0, 1, 9, 11, 31, b'!', b'\'', b'*', b'/', b':', b'@', b'[', b'`',
    b'{', b'~', 127, 128, 160, 223, 255,
];
const ALLOWED: &[u8] = b"abcdefghijklmnopqrstuvwxyz0123456789()  \n";

type Words = Vec<String>;

/// A gate in brackets, and what it joins.
struct Expression {
    operator: &'static str,
    operands: Vec<Operand>,
}

enum Operand {
    Name(String),
    Gate(Expression),
}

impl Expression {
    /// How many gates it has, itself included.
    fn gates(&self) -> usize {
        let inner = self.operands.iter().map(|operand| match operand {
            Operand::Name(_) => 0,
            Operand::Gate(expression) => expression.gates(),
        });
        1 + inner.sum::<usize>()
    }

    fn write(&self, words: &mut Words) {
        words.push("(".into());
        words.push(self.operator.into());
        for operand in &self.operands {
            match operand {
                Operand::Name(name) => words.push(name.clone()),
                Operand::Gate(expression) => expression.write(words),
            }
        }
        words.push(")".into());
    }
}

/// A line of the circuit with a name, and how many operands it has.
struct Named {
    name: String,
    pins: usize,
}

struct Circuit {
    words: Vec<Words>,
    lines: Vec<Named>,
    inputs: usize,
    count: usize,
}

fn line_of<'a>(head: &'a str, names: impl IntoIterator<Item = &'a String>) -> Words {
    let mut words = vec!["(".to_string(), head.to_string()];
    words.extend(names.into_iter().cloned());
    words.push(")".into());
    words
}

fn word(random: &mut Random, length: usize) -> String {
    let letters = b"abcdefghijklmnopqrstuvwxyz";
    let others = b"abcdefghijklmnopqrstuvwxyz0123456789";
    (0..length)
        .map(|place| {
            *random.pick(if place == 0 {
                &letters[..]
            } else {
                &others[..]
            }) as char
        })
        .collect()
}

/// How the circuit of a text is to be.
struct Plan {
    inputs: usize,
    gates: usize,
    deepest: usize,
    most_operands: usize,
    nested: usize,
    outputs: usize,
}

impl Plan {
    fn random(random: &mut Random) -> Plan {
        let mut plan = match random.below(100) {
            0..60 => Plan {
                inputs: random.between(1, 5),
                gates: random.between(0, 5),
                deepest: random.between(1, 4),
                most_operands: random.between(2, 4),
                nested: random.between(0, 50),
                outputs: random.between(1, 4),
            },
            60..85 => Plan {
                inputs: random.between(2, 10),
                gates: random.between(2, 12),
                deepest: random.between(1, 7),
                most_operands: random.between(2, 8),
                nested: random.between(0, 30),
                outputs: random.between(1, 10),
            },
            85..95 => Plan {
                inputs: random.between(1, 4),
                gates: random.between(1, 3),
                deepest: 7,
                most_operands: random.between(2, 3),
                nested: random.between(50, 65),
                outputs: random.between(1, 4),
            },
            _ => Plan {
                inputs: random.between(10, MOST_INPUTS),
                gates: random.between(10, 60),
                deepest: random.between(1, 5),
                most_operands: random.between(2, 8),
                nested: random.between(0, 20),
                outputs: random.between(1, MOST_OUTPUTS),
            },
        };
        if random.percent(2) {
            plan.inputs = MOST_INPUTS;
        }
        plan
    }
}

fn expression(random: &mut Random, plan: &Plan, known: &[Named], depth: usize) -> Expression {
    if random.percent(15) {
        let operator = *random.pick(&SINGLE);
        return Expression {
            operator,
            operands: vec![operand(random, plan, known, depth)],
        };
    }
    let count = random.between(2, plan.most_operands);
    let operator = *random.pick(&JOINING);
    let operands = (0..count)
        .map(|_| operand(random, plan, known, depth))
        .collect();
    Expression { operator, operands }
}

fn operand(random: &mut Random, plan: &Plan, known: &[Named], depth: usize) -> Operand {
    if depth < plan.deepest && random.percent(plan.nested) {
        return Operand::Gate(expression(random, plan, known, depth + 1));
    }
    // The line that was named last is read often, so that faults of the early lines come through to the outputs.
    let named = if random.percent(30) {
        &known[known.len() - 1]
    } else {
        random.pick(known)
    };
    Operand::Name(named.name.clone())
}

fn fresh_name(random: &mut Random, lines: &[Named]) -> String {
    loop {
        let name = match random.below(10) {
            0..3 => random.pick(&TELLING_NAMES).to_string(),
            3..7 => {
                let length = random.between(1, 2);
                word(random, length)
            }
            7 => word(random, 8),
            8 => format!("{}{}", word(random, 1), random.below(100)),
            _ => {
                let length = random.between(1, 8);
                word(random, length)
            }
        };
        if lines.iter().all(|line| line.name != name) {
            return name;
        }
    }
}

impl Circuit {
    fn random(random: &mut Random, plan: &Plan) -> Circuit {
        let mut lines: Vec<Named> = Vec::new();
        for _ in 0..plan.inputs {
            let name = fresh_name(random, &lines);
            lines.push(Named { name, pins: 0 });
        }
        let mut words = vec![line_of("inputs", lines.iter().map(|line| &line.name))];
        let mut count = plan.inputs;
        for _ in 0..plan.gates {
            let expression = expression(random, plan, &lines, 1);
            if count + expression.gates() > MOST_LINES {
                break;
            }
            count += expression.gates();
            let name = fresh_name(random, &lines);
            let mut line = vec!["(".into(), "gate".into(), name.clone()];
            expression.write(&mut line);
            line.push(")".into());
            words.push(line);
            lines.push(Named {
                name,
                pins: expression.operands.len(),
            });
        }
        // Mostly the latest lines are outputs, sometimes any lines, inputs among them.
        let mut order: Vec<usize> = (0..lines.len()).rev().collect();
        if random.percent(30) {
            shuffle(random, &mut order);
        }
        order.truncate(plan.outputs.min(MOST_OUTPUTS));
        shuffle(random, &mut order);
        words.push(line_of(
            "outputs",
            order.iter().map(|&place| &lines[place].name),
        ));
        Circuit {
            words,
            lines,
            inputs: plan.inputs,
            count,
        }
    }
}

/// A job for each fault of the circuit's lines, in any order.
fn all_faults(random: &mut Random, circuit: &Circuit) -> Vec<Words> {
    let mut faults = Vec::new();
    for line in &circuit.lines {
        for pin in 0..=line.pins {
            for level in ["0", "1"] {
                faults.push(job("fault", &[&line.name, &pin.to_string(), level]));
            }
        }
    }
    shuffle(random, &mut faults);
    faults
}

fn shuffle<T>(random: &mut Random, list: &mut [T]) {
    for place in (1..list.len()).rev() {
        let other = random.below(place + 1);
        list.swap(place, other);
    }
}

fn job(head: &str, operands: &[&str]) -> Words {
    let mut words = vec!["(".to_string(), head.to_string()];
    words.extend(operands.iter().map(|operand| operand.to_string()));
    words.push(")".into());
    words
}

fn budget(random: &mut Random, circuit: &Circuit) -> usize {
    match random.below(20) {
        0..7 => random.between(1, 12),
        7..12 => random.between(1, 200),
        12..16 => random.between(100, 3_000),
        16 => *random.pick(&[0, MOST_TRIES + 1, 9_999_999]),
        _ if circuit.inputs <= 7 && circuit.count <= 60 => {
            *random.pick(&[MOST_TRIES - 1, MOST_TRIES, 50_000])
        }
        _ if circuit.count <= 100 => random.between(3_000, 50_000),
        _ => random.between(1_000, 8_000),
    }
}

fn fault(random: &mut Random, circuit: &Circuit) -> Words {
    let line = random.pick(&circuit.lines);
    let name = if random.percent(3) {
        word(random, 2)
    } else {
        line.name.clone()
    };
    let pin = if random.percent(8) {
        line.pins + random.between(1, 3)
    } else {
        random.below(line.pins + 1)
    };
    let level = if random.percent(5) {
        random.between(2, 9)
    } else {
        random.below(2)
    };
    let pin = if random.percent(1) {
        *random.pick(&[512, 9_999_999])
    } else {
        pin
    };
    job("fault", &[&name, &pin.to_string(), &level.to_string()])
}

/// The number of an entry, most often of one that is there.
fn entry(random: &mut Random, entries: usize) -> usize {
    if entries == 0 || random.percent(5) {
        entries + random.below(3)
    } else {
        random.below(entries)
    }
}

fn jobs(random: &mut Random, circuit: &Circuit) -> Vec<Words> {
    let mut lines = Vec::new();
    if random.percent(5) {
        lines.push(fault(random, circuit));
    }
    if random.percent(97) {
        let kind = *random.pick(&KINDS);
        lines.push(job("kind", &[kind]));
    }
    // About how many entries there are: a fault that is refused is counted too.
    let mut entries = 0;
    for _ in 0..random.between(1, 6) {
        lines.push(fault(random, circuit));
        entries += 1;
    }
    for _ in 0..random.between(0, 18) {
        let number = entry(random, entries).to_string();
        match random.below(100) {
            0..25 => {
                lines.push(fault(random, circuit));
                entries += 1;
            }
            25..65 => {
                let tries = budget(random, circuit);
                lines.push(job("search", &[&number, &tries.to_string()]));
            }
            65..72 => {
                // A second search, with a budget that is not above the first or just above.
                let first = random.between(1, 9);
                let second = if random.percent(70) {
                    random.between(1, first)
                } else {
                    first + 1
                };
                lines.push(job("search", &[&number, &first.to_string()]));
                lines.push(job("search", &[&number, &second.to_string()]));
            }
            72..90 => lines.push(job("cover", &[&number])),
            90..96 => lines.push(job("list", &[])),
            96 => lines.push(job("kind", &[*random.pick(&KINDS)])),
            97 => lines.push(job(
                random.pick::<&str>(&HEADS),
                &[*random.pick(&STRANGE_WORDS)],
            )),
            98 => lines.push(job("fault", &[*random.pick(&STRANGE_WORDS), "0", "0"])),
            _ => lines.push(job(
                "search",
                &[*random.pick(&STRANGE_WORDS), *random.pick(&STRANGE_WORDS)],
            )),
        }
    }
    if random.percent(70) {
        lines.push(job("list", &[]));
    }
    lines
}

/// How the words of a line are kept apart.
#[derive(Clone, Copy)]
enum Spacing {
    Usual,
    Tight,
    Loose,
}

fn spaces(random: &mut Random, least: usize) -> String {
    let more = if random.percent(40) {
        random.between(0, 3)
    } else {
        0
    };
    " ".repeat(least + more)
}

fn render(random: &mut Random, lines: &[Words]) -> Vec<u8> {
    let spacing = *random.pick(&[
        Spacing::Usual,
        Spacing::Usual,
        Spacing::Tight,
        Spacing::Loose,
    ]);
    let mut text = String::new();
    for words in lines {
        if let Spacing::Loose = spacing {
            text += &spaces(random, 0);
        }
        for (place, word) in words.iter().enumerate() {
            let before = if place == 0 {
                "("
            } else {
                words[place - 1].as_str()
            };
            let needed = ![before, word.as_str()]
                .iter()
                .any(|word| *word == "(" || *word == ")");
            match spacing {
                Spacing::Usual if place > 0 && before != "(" && word != ")" => text.push(' '),
                Spacing::Tight if place > 0 && needed => text.push(' '),
                Spacing::Loose => text += &spaces(random, usize::from(place > 0 && needed)),
                _ => {}
            }
            text += word;
        }
        if let Spacing::Loose = spacing {
            text += &spaces(random, 0);
        }
        text.push('\n');
    }
    match random.below(20) {
        0..5 => {
            text.pop();
        }
        5 => text += "  ",
        6 => text.push('\n'),
        _ => {}
    }
    text.into_bytes()
}

fn valid(random: &mut Random) -> (Circuit, Vec<Words>) {
    let plan = Plan::random(random);
    let circuit = Circuit::random(random, &plan);
    let jobs = jobs(random, &circuit);
    (circuit, jobs)
}

fn whole(circuit: &Circuit, jobs: &[Words]) -> Vec<Words> {
    circuit.words.iter().chain(jobs).cloned().collect()
}

/// The words of nested gates that open so many brackets, and close them.
fn nested(random: &mut Random, gates: usize, innermost: &str) -> Words {
    let mut words = Words::new();
    let mut closing = Words::new();
    for _ in 0..gates {
        words.push("(".into());
        if random.percent(60) {
            words.push(random.pick(&SINGLE).to_string());
        } else {
            words.push(random.pick(&JOINING).to_string());
            words.push(innermost.into());
        }
        closing.push(")".into());
    }
    words.push(innermost.into());
    words.extend(closing);
    words
}

/// A text that stands at one of the limits, just below it or just above it.
fn at_a_limit(random: &mut Random) -> Vec<u8> {
    match random.below(13) {
        0 => {
            // operands of a gate
            let (circuit, jobs) = valid(random);
            let mut lines = whole(&circuit, &jobs);
            let place = random.between(1, circuit.words.len() - 1);
            let single = random.percent(25);
            let operator = *random.pick(if single { &SINGLE[..] } else { &JOINING[..] });
            let count = if single {
                random.below(3)
            } else {
                *random.pick(&[0, 1, 2, MOST_OPERANDS, MOST_OPERANDS + 1, MOST_OPERANDS + 1])
            };
            let mut line: Words = ["(", "gate", "limit9", "(", operator]
                .map(String::from)
                .into();
            for number in 0..count {
                if random.percent(10) || number >= MOST_OPERANDS && random.percent(50) {
                    line.extend(nested(random, 1, &circuit.lines[0].name));
                } else {
                    line.push(random.pick(&circuit.lines[..circuit.inputs]).name.clone());
                }
            }
            if random.percent(5) {
                line.push("unknown9".into());
            }
            line.extend([")".into(), ")".into()]);
            lines.insert(place, line);
            render(random, &lines)
        }
        1 => {
            // open brackets
            let (circuit, jobs) = valid(random);
            let mut lines = whole(&circuit, &jobs);
            let place = random.between(1, circuit.words.len() - 1);
            let mut line: Words = ["(", "gate", "limit9"].map(String::from).into();
            let gates = random.between(MOST_OPEN - 2, MOST_OPEN + 1);
            let name = &random.pick(&circuit.lines[..circuit.inputs]).name;
            line.extend(nested(random, gates, name));
            line.push(")".into());
            lines.insert(place, line);
            render(random, &lines)
        }
        2 => {
            // inputs
            let (circuit, jobs) = valid(random);
            let mut lines = whole(&circuit, &jobs);
            let wanted = random.between(MOST_INPUTS - 1, MOST_INPUTS + 2);
            let at = lines[0].len() - 1;
            for number in circuit.inputs..wanted {
                lines[0].insert(at, format!("more{number}"));
            }
            if random.percent(30) {
                let again = random.pick(&circuit.lines[..circuit.inputs]).name.clone();
                let at = lines[0].len() - 1;
                lines[0].insert(at, again);
            }
            render(random, &lines)
        }
        3 | 4 => {
            // outputs
            let plan = Plan {
                inputs: random.between(30, MOST_INPUTS),
                gates: random.between(36, 45),
                deepest: 1,
                most_operands: 3,
                nested: 0,
                outputs: 64,
            };
            let mut circuit = Circuit::random(random, &plan);
            let wanted = random
                .between(MOST_OUTPUTS - 1, MOST_OUTPUTS + 2)
                .min(circuit.lines.len());
            let mut order: Vec<usize> = (0..circuit.lines.len()).collect();
            shuffle(random, &mut order);
            let mut names: Vec<String> = order[..wanted]
                .iter()
                .map(|&line| circuit.lines[line].name.clone())
                .collect();
            match random.below(4) {
                0 => names.push("unknown9".into()),
                1 => names.push(names[random.below(wanted)].clone()),
                _ => {}
            }
            let last = circuit.words.len() - 1;
            circuit.words[last] = line_of("outputs", &names);
            let jobs = jobs(random, &circuit);
            render(random, &whole(&circuit, &jobs))
        }
        5 | 6 => {
            // lines of the circuit, inputs and gates together
            let inputs = random.between(1, MOST_INPUTS);
            let names: Vec<String> = (0..inputs).map(|number| format!("i{number}")).collect();
            let mut lines = vec![line_of("inputs", &names)];
            let wanted = random.between(MOST_LINES - 1, MOST_LINES + 2);
            let mut count = inputs;
            let mut gates = 0;
            while count < wanted {
                let deep = random.between(1, 7).min(wanted - count);
                let mut line: Words =
                    ["(".to_string(), "gate".to_string(), format!("g{gates}")].into();
                let name = if gates > 0 && random.percent(70) {
                    format!("g{}", gates - 1)
                } else {
                    random.pick(&names).clone()
                };
                line.extend(nested(random, deep, &name));
                line.push(")".into());
                if random.percent(1) {
                    // one operand too few, where a limit may be passed too
                    let inner = line.len() - 2 - deep;
                    line.remove(inner);
                }
                lines.push(line);
                count += deep;
                gates += 1;
            }
            let outputs = [format!("g{}", gates - 1), names[0].clone()];
            lines.push(line_of("outputs", &outputs));
            lines.push(job("kind", &[*random.pick(&KINDS)]));
            for _ in 0..random.between(1, 10) {
                let gate = format!("g{}", random.below(gates));
                let level = random.below(2).to_string();
                let pin = random.below(2).to_string();
                lines.push(job("fault", &[&gate, &pin, &level]));
                let number = random.below(5).to_string();
                let tries = random.between(1, 500).to_string();
                lines.push(job("search", &[&number, &tries]));
            }
            lines.push(job("list", &[]));
            render(random, &lines)
        }
        7 => {
            // bytes of the text
            let (circuit, jobs) = valid(random);
            let lines = whole(&circuit, &jobs);
            let text = render(random, &lines);
            let wanted = random.between(MOST_BYTES - 1, MOST_BYTES + 2);
            padded(random, text, wanted)
        }
        8 => {
            // bytes of a name
            let (circuit, jobs) = valid(random);
            let mut lines = whole(&circuit, &jobs);
            let old = random.pick(&circuit.lines).name.clone();
            let length = random.between(7, 10);
            let new = word(random, length);
            for word in lines.iter_mut().flatten() {
                if *word == old {
                    word.clone_from(&new);
                }
            }
            render(random, &lines)
        }
        9 | 10 => {
            // digits and size of a number
            let (circuit, mut jobs) = valid(random);
            for _ in 0..random.between(1, 5) {
                let numbers = [
                    "0",
                    "1",
                    "00",
                    "01",
                    "10",
                    "999999",
                    "1000000",
                    "1000001",
                    "9999999",
                    "0000001",
                    "10000000",
                    "00000000",
                    "99999999",
                    "999999999",
                    "18446744073709551616",
                    "1a",
                    "a1",
                ];
                let place = random.below(jobs.len());
                let Some(at) = jobs[place]
                    .iter()
                    .position(|word| word.as_bytes()[0].is_ascii_digit())
                else {
                    continue;
                };
                let at = if random.percent(60) {
                    at
                } else {
                    (at + 1).min(jobs[place].len() - 1)
                };
                jobs[place][at] = random.pick(&numbers).to_string();
            }
            render(random, &whole(&circuit, &jobs))
        }
        _ => full_folder(random),
    }
}

/// Enters all faults of a circuit with more of them than a folder holds, or just as many.
fn full_folder(random: &mut Random) -> Vec<u8> {
    let plan = Plan {
        inputs: random.between(2, 8),
        gates: random.between(75, 95),
        deepest: 1,
        most_operands: random.between(3, 5),
        nested: 0,
        outputs: random.between(1, 64),
    };
    let circuit = Circuit::random(random, &plan);
    let mut faults = all_faults(random, &circuit);
    let kept = random
        .between(MOST_ENTRIES - 1, MOST_ENTRIES + 6)
        .min(faults.len());
    faults.truncate(kept);
    let mut lines = circuit.words.clone();
    lines.push(job("kind", &[*random.pick(&KINDS)]));
    lines.extend(faults);
    for _ in 0..random.between(2, 12) {
        match random.below(6) {
            0 => {
                // entered already, where the folder is full too
                let place = circuit.words.len() + 1 + random.below(kept);
                lines.push(lines[place].clone());
            }
            1 => lines.push(fault(random, &circuit)),
            2 => {
                let number = random
                    .between(kept.min(MOST_ENTRIES) - 2, MOST_ENTRIES + 1)
                    .to_string();
                lines.push(job("search", &[&number, "20"]));
            }
            3 | 4 => {
                let number = random.below(kept).to_string();
                lines.push(job(
                    "search",
                    &[&number, &random.between(1, 3_000).to_string()],
                ));
                lines.push(job("cover", &[&number]));
            }
            _ => lines.push(job("list", &[])),
        }
    }
    render(random, &lines)
}

/// The text, made longer: by spaces in front of one of its lines, by an empty end or by jobs.
fn padded(random: &mut Random, mut text: Vec<u8>, wanted: usize) -> Vec<u8> {
    if text.len() >= wanted {
        return text;
    }
    match random.below(3) {
        0 => {
            let starts: Vec<usize> = (0..text.len())
                .filter(|&place| place == 0 || text[place - 1] == b'\n')
                .collect();
            let start = *random.pick(&starts);
            let filling = vec![b' '; wanted - text.len()];
            text.splice(start..start, filling);
        }
        1 => text.resize(wanted, b' '),
        _ => {
            if text.last() != Some(&b'\n') {
                text.push(b'\n');
            }
            let filling = random
                .pick(&[
                    "(list)\n",
                    "(fault a 0 0)\n",
                    "(seek)\n",
                    "\n",
                    "(cover 0)\n",
                    "?\n",
                ])
                .as_bytes();
            // A listing writes a line for each entry, so that many of them would write a great deal.
            let filling = if filling == b"(list)\n" {
                b"(list a\n"
            } else {
                filling
            };
            while text.len() < wanted {
                text.extend_from_slice(filling);
            }
            text.truncate(wanted);
        }
    }
    text
}

/// A word that may take the place of another.
fn any_word(random: &mut Random, lines: &[Words]) -> String {
    match random.below(8) {
        0 => random.pick(&TELLING_NAMES).to_string(),
        1 => random.pick(&STRANGE_WORDS).to_string(),
        2 => random.pick(&HEADS).to_string(),
        3 => random.pick(&JOINING).to_string(),
        4 => random.pick(&["(", ")"]).to_string(),
        _ => {
            let all: Vec<&String> = lines.iter().flatten().collect();
            if all.is_empty() {
                "a".into()
            } else {
                random.pick(&all).to_string()
            }
        }
    }
}

/// One damage to the words or the lines of a text, at a line from `first` up to, and without, `end`.
fn damage_words(random: &mut Random, lines: &mut Vec<Words>, first: usize, end: usize) {
    let end = end.min(lines.len());
    if first >= end {
        return;
    }
    let line = random.between(first, end - 1);
    if lines[line].is_empty() {
        return;
    }
    let place = random.below(lines[line].len());
    match random.below(18) {
        0..3 => lines[line][place] = any_word(random, lines),
        3 => {
            let extra = any_word(random, lines);
            lines[line].insert(place, extra);
        }
        4 => {
            lines[line].remove(place);
        }
        5 => {
            let twice = lines[line][place].clone();
            lines[line].insert(place, twice);
        }
        6 => {
            lines.remove(line);
        }
        7 => {
            let twice = lines[line].clone();
            lines.insert(line, twice);
        }
        8 => {
            let other = random.between(first, end - 1);
            lines.swap(line, other);
        }
        9 => {
            let brackets: Vec<usize> = (0..lines[line].len())
                .filter(|&at| ["(", ")"].contains(&lines[line][at].as_str()))
                .collect();
            if !brackets.is_empty() {
                let at = *random.pick(&brackets);
                lines[line].remove(at);
            }
        }
        10 => {
            let length = random.between(7, 12);
            lines[line][place] = word(random, length);
        }
        11 => {
            let digit = random.below(10);
            let old = lines[line][place].clone();
            if old != "(" && old != ")" {
                lines[line][place] = format!("{digit}{old}");
            }
        }
        12 => lines.insert(line, Words::new()),
        13 => {
            // a word too many in front of a closing bracket, or one too few
            let closing: Vec<usize> = (1..lines[line].len())
                .filter(|&at| lines[line][at] == ")")
                .collect();
            if !closing.is_empty() {
                let at = *random.pick(&closing);
                if random.percent(50) {
                    let extra = any_word(random, lines);
                    lines[line].insert(at, extra);
                } else {
                    lines[line].remove(at - 1);
                }
            }
        }
        14 => {
            // further brackets, whether a gate may stand there or not
            let count = random.between(1, 9);
            let opening: Words = (0..count)
                .flat_map(|_| ["(", *random.pick(&SINGLE)])
                .map(String::from)
                .collect();
            lines[line].splice(place..place, opening);
        }
        15 => {
            // a word of the line stands there once more
            let other = lines[line][random.below(lines[line].len())].clone();
            lines[line].insert(place, other);
        }
        16 => lines.truncate(line + 1),
        _ => {
            // two words of the line change places
            let other = random.below(lines[line].len());
            lines[line].swap(place, other);
        }
    }
}

/// One damage to the bytes of a text, at a place from `first` up to, and without, `end`.
fn damage_bytes(random: &mut Random, text: &mut Vec<u8>, first: usize, end: usize) {
    let end = end.min(text.len());
    if first >= end {
        return;
    }
    let place = random.between(first, end - 1);
    let byte = match random.below(5) {
        0 | 1 => *random.pick(ALLOWED),
        2 | 3 => *random.pick(&FORBIDDEN),
        _ => random.below(256) as u8,
    };
    match random.below(12) {
        0..3 => text[place] = byte,
        3 => {
            text.remove(place);
        }
        4 | 5 => text.insert(place, byte),
        6 => text.insert(place, text[place]),
        7 => text.truncate(place),
        8 => {
            let ends: Vec<usize> = (first..end).filter(|&at| text[at] == b'\n').collect();
            if !ends.is_empty() {
                let at = *random.pick(&ends);
                match random.below(4) {
                    0 => text.insert(at, b'\r'),
                    1 => text.truncate(at),
                    2 => text.truncate(at + 1),
                    _ => {
                        text.remove(at);
                    }
                }
            }
        }
        9 => {
            // a part of the text comes once more
            let stop = (place + random.between(1, 12)).min(text.len());
            let part = text[place..stop].to_vec();
            text.splice(stop..stop, part);
        }
        10 => {
            let stop = (place + random.between(1, 12)).min(text.len());
            text.drain(place..stop);
        }
        _ if random.percent(20) => {
            // each line feed becomes a carriage return and a line feed
            let lines: Vec<&[u8]> = text.split(|&byte| byte == b'\n').collect();
            *text = lines.join(&b"\r\n"[..]);
        }
        _ => {
            let count = random.between(1, 3);
            text.splice(place..place, std::iter::repeat_n(b' ', count));
        }
    }
}

fn damaged(random: &mut Random) -> Vec<u8> {
    let (circuit, jobs) = valid(random);
    let mut lines = whole(&circuit, &jobs);
    let mut among_words = 0;
    let mut among_bytes = 0;
    for _ in 0..random.between(1, 4) {
        if random.percent(55) {
            among_words += 1
        } else {
            among_bytes += 1
        }
    }
    // Half of the damages strike the circuit, and the others the jobs, where a refusal does not end the run.
    let in_circuit = random.percent(50);
    for _ in 0..among_words {
        let split = circuit.words.len();
        let (first, end) = if in_circuit {
            (0, split)
        } else {
            (split, usize::MAX)
        };
        damage_words(random, &mut lines, first, end);
    }
    let mut text = render(random, &lines);
    for _ in 0..among_bytes {
        let split = text
            .iter()
            .enumerate()
            .filter(|(_, byte)| **byte == b'\n')
            .nth(circuit.words.len() - 1)
            .map_or(text.len(), |(place, _)| place + 1);
        let (first, end) = if in_circuit {
            (0, split)
        } else {
            (split, usize::MAX)
        };
        damage_bytes(random, &mut text, first, end);
    }
    text
}

/// Bytes that were never a text: random words, random allowed bytes or any bytes.
fn noise(random: &mut Random) -> Vec<u8> {
    let mut text: Vec<u8> = random
        .pick(&[
            "",
            "(inputs a b)\n",
            "(inputs a b)\n(gate y (and a b))\n",
            "(inputs a)\n(outputs a)\n(kind nine)\n",
        ])
        .bytes()
        .collect();
    for _ in 0..random.between(0, 40) {
        match random.below(10) {
            0 => text.push(*random.pick(&FORBIDDEN)),
            1..4 => text.push(*random.pick(ALLOWED)),
            4 => text.push(random.below(256) as u8),
            _ => {
                text.extend(any_word(random, &[]).into_bytes());
                text.push(*random.pick(b"   \n()"));
            }
        }
    }
    text
}

/// Enters faults of a small circuit with much that meets again, searches each of them to the end, and covers.
fn searched(random: &mut Random) -> Vec<u8> {
    let plan = Plan {
        inputs: random.between(3, 7),
        gates: random.between(5, 14),
        deepest: random.between(1, 2),
        most_operands: random.between(2, 3),
        nested: random.between(0, 30),
        outputs: random.between(1, 3),
    };
    let circuit = Circuit::random(random, &plan);
    let mut lines = circuit.words.clone();
    lines.push(job("kind", &[*random.pick(&KINDS)]));
    let mut faults = all_faults(random, &circuit);
    faults.truncate(random.between(10, 40));
    let entries = faults.len();
    lines.extend(faults);
    let covering = random.percent(50);
    for number in 0..entries {
        let number = number.to_string();
        if random.percent(10) {
            lines.push(job(
                "search",
                &[&number, &random.between(1, 200).to_string()],
            ));
        }
        lines.push(job(
            "search",
            &[&number, &random.between(10_000, MOST_TRIES).to_string()],
        ));
        if covering && random.percent(30) {
            lines.push(job("cover", &[&number]));
        }
    }
    lines.push(job("list", &[]));
    render(random, &lines)
}

fn text(random: &mut Random) -> Vec<u8> {
    match random.below(100) {
        0..30 => {
            let (circuit, jobs) = valid(random);
            render(random, &whole(&circuit, &jobs))
        }
        30..40 => searched(random),
        40..55 => at_a_limit(random),
        55..97 => damaged(random),
        _ => noise(random),
    }
}

fn main() -> std::io::Result<()> {
    let arguments: Vec<String> = std::env::args().skip(1).collect();
    let number = |place: usize, otherwise: u64| {
        arguments
            .get(place)
            .map_or(Ok(otherwise), |word| word.parse())
    };
    let (Some(folder), Ok(count), Ok(seed)) = (arguments.first(), number(1, 10_000), number(2, 1))
    else {
        eprintln!("usage: texts FOLDER [COUNT] [SEED]");
        std::process::exit(2);
    };
    std::fs::create_dir_all(folder)?;
    for place in 1..=count {
        // Each text has a seed of its own, so that it stays what it is when the others change.
        let mut random = Random::new(seed.wrapping_mul(1_000_003).wrapping_add(place));
        std::fs::write(
            Path::new(folder).join(format!("{place:06}")),
            text(&mut random),
        )?;
    }
    Ok(())
}
