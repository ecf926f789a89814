//! The worked examples of the documents.

use bench::circuit::{Circuit, Join};
use bench::cone::ConeVisits;
use bench::reader;
use bench::session::answer_all;
use bench::values::{Five, Nine, Seven, ValueKind};
use bench::visit::{Visits, WholeVisits};

fn replies_by<S: Visits>(text: &[u8]) -> String {
    let mut replies = Vec::new();
    answer_all::<S>(text, &mut replies).expect("a vector takes every byte");
    String::from_utf8(replies).expect("replies are text")
}

/// The replies, which both ways to make visits must agree on.
fn replies(text: impl AsRef<[u8]>) -> String {
    let whole = replies_by::<WholeVisits>(text.as_ref());
    assert_eq!(whole, replies_by::<ConeVisits>(text.as_ref()));
    whole
}

fn refusal(text: &str) -> (u8, usize) {
    let refusal = reader::read(text.as_bytes())
        .err()
        .unwrap_or_else(|| panic!("granted: {text}"));
    (refusal.reason.number(), refusal.place)
}

fn circuit(text: &str) -> Circuit {
    reader::read(text.as_bytes()).expect("granted").0
}

#[test]
fn circuit_of_the_first_example() {
    let circuit = circuit("(inputs a s)\n(gate y (or (and s a) s))\n(outputs y)\n");
    assert_eq!(circuit.inputs(), 2);
    assert_eq!(circuit.lines(), 4);
    assert_eq!(circuit.outputs(), [3]);
    assert_eq!(circuit.operands(circuit.gate(2).unwrap()), [1, 0]);
    assert_eq!(circuit.operands(circuit.gate(3).unwrap()), [2, 1]);
    assert_eq!(circuit.name(2), None);
    assert_eq!(circuit.name(3).unwrap().to_string(), "y");
}

#[test]
fn numbers_of_lines() {
    let circuit = circuit("(inputs a b s)\n(gate y (or (and a (not s)) (and b s)))\n(outputs y)\n");
    let operands: Vec<&[u16]> = (3..7)
        .map(|line| circuit.operands(circuit.gate(line).unwrap()))
        .collect();
    assert_eq!(operands, [&[2][..], &[0, 3], &[1, 2], &[4, 5]]);
    assert_eq!(circuit.outputs(), [6]);
}

#[test]
fn rests() {
    for (text, place) in [
        ("(inputs a)\n(outputs a)", 22),
        ("(inputs a)\n(outputs a)\n", 23),
        ("(inputs a)\n(outputs a)\n\n", 23),
        ("(inputs a)\n(outputs a)  \n(list)", 25),
        ("(inputs a)\n(outputs a)\n?", 23),
    ] {
        assert_eq!(reader::read(text.as_bytes()).expect("granted").1, place);
    }
}

#[test]
fn refusals_of_circuits() {
    for (text, number, place) in [
        ("(inputs a a)", 8, 10),
        ("(inputs a)", 10, 10),
        ("(inputs a", 4, 9),
        ("(inputs a)\n\n(outputs a)", 4, 11),
        ("(inputs a)\n  ", 10, 13),
        ("", 10, 0),
        ("  ", 10, 2),
        ("(outputs a)", 4, 1),
        ("(inputs a)\n(list)", 5, 12),
        ("(inputs a)\n(gate y (gate a a))", 5, 20),
        ("(inputs a)\n(gate y a)", 4, 19),
        ("(inputs a)\n(gate y (and a))", 6, 25),
        ("(inputs a)\n(gate y (not a b))", 6, 26),
        ("(inputs a)\n(gate y (not y))", 7, 24),
        ("(inputs a)\n(gate y (not 7up))", 2, 24),
        ("(abc?", 5, 1),
        ("(inputs ab?c)", 1, 10),
        ("abcdefghi?", 2, 0),
        ("(inputs a)\n(outputs a) b", 4, 23),
        ("(inputs abcdefghi)", 2, 8),
        (
            "(inputs a)\n(gate y (not (not (not (not (not (not (not (",
            3,
            54,
        ),
        ("(inputs)", 4, 7),
        ("(inputs a)\n(gate y (nxor a a))", 5, 20),
        ("(inputs a)\n(outputs b)", 7, 20),
        ("(inputs a)\n(gate y 4)", 2, 19),
        ("(inputs a)\n(gate y (2and a a))", 2, 20),
        ("(inputs a)\n(gate y (not a 7))", 2, 26),
        ("(inputs a)\n(gate y ())", 4, 20),
    ] {
        assert_eq!(refusal(text), (number, place), "{text}");
    }
}

#[test]
fn limits() {
    let inputs = |count: usize| -> String {
        let names: Vec<String> = (0..count).map(|input| format!("n{input}")).collect();
        format!("(inputs {})\n", names.join(" "))
    };
    assert_eq!(refusal(&inputs(65)), (9, 254));
    assert!(reader::read((inputs(64) + "(outputs n0)").as_bytes()).is_ok());

    let mut text = inputs(1);
    for gate in 1..512 {
        text += &format!("(gate n{gate} (buf n0))\n");
    }
    let place = text.len() + "(gate n512 (buf n0".len();
    assert_eq!(
        refusal(&format!("{text}(gate n512 (buf n0))\n(outputs n0)")),
        (9, place)
    );
    assert_eq!(circuit(&format!("{text}(outputs n0)")).lines(), 512);

    let mut text = String::from("(inputs a)\n(outputs a)\n");
    text += &" ".repeat(65_536 - text.len());
    assert_eq!(replies(&text), "");
    assert_eq!(replies(text + " "), "(refused circuit 9 65536)\n");
}

#[test]
fn example_of_jobs() {
    assert_eq!(
        replies(
            "(inputs a s)\n(gate y (or (and s a) s))\n(outputs y)\n(kind nine)\n(fault s 0 0)\n(fault s 0 1)\n\
             (search 0 100)\n(search 1 4)\n(cover 0)\n(list)\n(fault y 3 0)\n"
        ),
        "(kind nine)\n(entry 0)\n(entry 1)\n(fewest x1 7)\n(spent 00 4)\n(covered 0)\n\
         (entry 0 s 0 0 fewest x1 7)\n(entry 1 s 0 1 spent 00 4)\n(coverage 2 2)\n(refused folder 12 136)\n"
    );
}

#[test]
fn full_adder() {
    assert_eq!(
        replies(include_bytes!("../../examples/adder.txt")),
        "(kind nine)\n(entry 0)\n(entry 1)\n(entry 2)\n(fewest 010 22)\n(covered 2)\n\
         (entry 0 half 0 0 fewest 010 22)\n(entry 1 carry 1 1 covered none 0)\n(entry 2 c 0 1 covered none 0)\n\
         (coverage 3 3)\n"
    );
}

#[test]
fn fewest_inputs_of_c17() {
    let replies = replies(include_bytes!("../../examples/c17.txt"));
    let optimum = include_str!("../../examples/c17-optimum.txt");
    let mut compared = 0;
    for (number, line) in optimum.lines().enumerate() {
        let words: Vec<&str> = line.split(' ').collect();
        let begin = format!(
            "(entry {number} {} {} {} fewest ",
            words[0], words[1], words[2]
        );
        let entry = replies
            .lines()
            .find_map(|reply| reply.strip_prefix(&begin))
            .expect("the list has the entry");
        let cube = entry.split(' ').next().unwrap();
        let driven = cube.bytes().filter(|&letter| letter != b'x').count();
        assert_eq!(driven.to_string(), words[3]);
        compared += 1;
    }
    assert_eq!(compared, 46);
    assert!(replies.ends_with("(coverage 46 46)\n"));
}

/// The replies to job lines behind a circuit of 23 bytes with the one input `a`.
fn job_replies(jobs: &str) -> String {
    replies(format!("(inputs a)\n(outputs a)\n{jobs}"))
}

#[test]
fn refusals_of_job_lines() {
    for (jobs, expected) in [
        ("(list)", "(refused form 4 24)\n"),
        ("(lost)", "(refused form 5 24)\n"),
        ("(gate)", "(refused form 5 24)\n"),
        ("(kind ten)", "(refused form 5 29)\n"),
        ("(kind 10)", "(refused text 2 29)\n"),
        ("\n", "(refused form 4 23)\n"),
        ("  ", ""),
        (
            " ( kind  five ) \n \n",
            "(kind five)\n(refused form 4 41)\n",
        ),
        ("(kind five)\n(kind", "(kind five)\n(refused form 4 36)\n"),
        (
            "(kind five) x\n(kind nine)\n",
            "(refused form 4 35)\n(kind nine)\n",
        ),
    ] {
        assert_eq!(job_replies(jobs), expected, "{jobs}");
    }
    // Behind the kind's line, the next begins at 35.
    for (jobs, expected) in [
        ("(fault b 0 0)", "(refused circuit 7 42)\n"),
        ("(fault a 00 0)", "(refused text 2 44)\n"),
        ("(fault a b 0)", "(refused text 2 44)\n"),
        ("(fault a 12345678 0)", "(refused text 2 44)\n"),
        ("(fault a 1234567 0)", "(refused folder 12 35)\n"),
        ("(fault a 0 2)", "(refused folder 13 35)\n"),
        ("(fault a 0 0 0)", "(refused text 2 48)\n"),
        ("(fault a 0 0 a)", "(refused form 4 48)\n"),
        ("(fault a 0)", "(refused form 4 45)\n"),
        (
            "(fault a 0 0)\n(fault a 0 0)",
            "(entry 0)\n(refused folder 14 49)\n",
        ),
        ("(search 0 0)", "(refused folder 16 35)\n"),
        (
            "(fault a 0 0)\n(search 0 0)",
            "(entry 0)\n(refused folder 18 49)\n",
        ),
        (
            "(fault a 0 0)\n(search 0 1000001)",
            "(entry 0)\n(refused folder 18 49)\n",
        ),
        (
            "(fault a 0 0)\n(search 0 1)\n(search 0 1)\n(search 0 0)\n(search 0 3)\n(search 0 0)",
            "(entry 0)\n(spent none 1)\n(refused folder 19 62)\n(refused folder 18 75)\n(fewest 1 3)\n\
             (refused folder 17 101)\n",
        ),
        ("(cover 0)", "(refused folder 16 35)\n"),
        (
            "(fault a 0 0)\n (cover 0)",
            "(entry 0)\n(refused folder 21 49)\n",
        ),
        ("(list)", "(coverage 0 0)\n"),
        ("(list)x?\n(list)", "(refused form 4 41)\n(coverage 0 0)\n"),
        (
            "(list?\n\n(list)",
            "(refused text 1 40)\n(refused form 4 42)\n(coverage 0 0)\n",
        ),
    ] {
        let expected = format!("(kind nine)\n{expected}");
        assert_eq!(
            job_replies(&format!("(kind nine)\n{jobs}")),
            expected,
            "{jobs}"
        );
    }
}

#[test]
fn a_redundant_fault() {
    // The or of an input and its negation is 1 whatever drives it.
    assert_eq!(
        replies(
            "(inputs a)\n(gate y (or a (not a)))\n(outputs y)\n(kind five)\n(fault y 0 1)\n(search 0 3)\n(list)"
        ),
        "(kind five)\n(entry 0)\n(redundant none 3)\n(entry 0 y 0 1 redundant none 3)\n(coverage 0 1)\n"
    );
}

/// A set of pairs: bit 2 * good + faulty is for that pair.
type Set = u8;

const FIVE: &[Set] = &[0b0001, 0b1000, 0b0100, 0b0010, 0b1111];
const SEVEN: &[Set] = &[0b0001, 0b1000, 0b0100, 0b0010, 0b0011, 0b1100, 0b1111];
const NINE: &[Set] = &[
    0b0001, 0b1000, 0b0100, 0b0010, 0b0011, 0b1100, 0b0101, 0b1010, 0b1111,
];

/// The smallest set of the family that has all pairs of another.
fn smallest(family: &[Set], pairs: Set) -> Set {
    *family
        .iter()
        .filter(|&&set| set & pairs == pairs)
        .min_by_key(|set| set.count_ones())
        .expect("the last set has all pairs")
}

/// What a kind answers, against the smallest set of its family that has all that the operands can make. A value is had for each
/// set of the family by driving, sticking and inverting.
fn check_kind<V: ValueKind>(family: &[Set]) {
    let mut values: Vec<(Set, V)> = vec![
        (0b1111, V::UNKNOWN),
        (0b0001, V::known(false)),
        (0b1000, V::known(true)),
    ];
    for (set, level) in [
        (0b0001, true),
        (0b1000, false),
        (0b1111, false),
        (0b1111, true),
    ] {
        let (_, value) = *values.iter().find(|(known, _)| *known == set).unwrap();
        values.push((smallest(family, stuck(set, level)), value.stick(level)));
    }
    // 0x is the and of 01 and x.
    let (_, differing) = *values.iter().find(|(set, _)| *set == 0b0010).unwrap();
    let half = V::UNKNOWN.and(differing);
    let due = smallest(family, made(0b1111, 0b0010, |left, right| left & right));
    values.push((due, half));
    values.extend(
        values
            .clone()
            .into_iter()
            .map(|(set, value)| (inverted(set), value.not())),
    );
    let meaning = |value: V| {
        let mut sets: Vec<Set> = values
            .iter()
            .filter(|(_, known)| *known == value)
            .map(|(set, _)| *set)
            .collect();
        sets.sort();
        sets.dedup();
        assert_eq!(sets.len(), 1, "{value:?}");
        sets[0]
    };
    for &(left_set, left) in &values {
        assert_eq!(meaning(left), left_set);
        assert_eq!(left.shows(), left_set & 0b1001 == 0);
        assert_eq!(left.still(), left_set & 0b0110 == 0);
        assert_eq!(meaning(left.not()), inverted(left_set));
        for level in [false, true] {
            assert_eq!(
                meaning(left.stick(level)),
                smallest(family, stuck(left_set, level))
            );
        }
        for &(right_set, right) in &values {
            let due = |join: fn(u8, u8) -> u8| smallest(family, made(left_set, right_set, join));
            let (both, either, differ) = (due(|l, r| l & r), due(|l, r| l | r), due(|l, r| l ^ r));
            assert_eq!(meaning(left.and(right)), both);
            assert_eq!(meaning(left.or(right)), either);
            assert_eq!(meaning(left.xor(right)), differ);
            assert_eq!(meaning(V::join(Join::And, left, right)), both);
            assert_eq!(meaning(V::join(Join::Or, left, right)), either);
            assert_eq!(meaning(V::join(Join::Xor, left, right)), differ);
            assert_eq!(meaning(V::join(Join::Nand, left, right)), inverted(both));
            assert_eq!(meaning(V::join(Join::Nor, left, right)), inverted(either));
            assert_eq!(meaning(V::join(Join::Xnor, left, right)), inverted(differ));
        }
    }
    let mut sets: Vec<Set> = values.iter().map(|(set, _)| *set).collect();
    sets.sort();
    sets.dedup();
    let mut family = family.to_vec();
    family.sort();
    assert_eq!(sets, family);
}

/// The pairs that a join gives, level by level, of each pair of the left and each of the right.
fn made(left: Set, right: Set, join: fn(u8, u8) -> u8) -> Set {
    let mut made = 0;
    for first in (0..4).filter(|pair| left >> pair & 1 != 0) {
        for second in (0..4).filter(|pair| right >> pair & 1 != 0) {
            made |= 1 << (join(first, second) & 3);
        }
    }
    made
}

fn inverted(set: Set) -> Set {
    made(set, 0b1000, |pair, ones| pair ^ ones)
}

fn stuck(set: Set, level: bool) -> Set {
    if level {
        made(set, 0b0010, |pair, faulty_one| pair | faulty_one)
    } else {
        made(set, 0b0100, |pair, good_one| pair & good_one)
    }
}

#[test]
fn kinds_give_the_smallest_sets() {
    check_kind::<Five>(FIVE);
    check_kind::<Seven>(SEVEN);
    check_kind::<Nine>(NINE);
}

#[test]
fn order_of_operands_matters_to_five() {
    let good_one = Five::known(true).stick(false);
    let faulty_one = Five::known(false).stick(true);
    assert_eq!(good_one.and(Five::UNKNOWN).and(faulty_one), Five::UNKNOWN);
    assert_eq!(
        good_one.and(faulty_one).and(Five::UNKNOWN),
        Five::known(false)
    );
}
