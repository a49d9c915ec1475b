//! Inputs: books of many shapes, and how they lie in memory, in text and on the stack.

use super::Table;
use crate::random::Random;
use crate::second::{code_of, Book, Entry, Literal};
use std::collections::BTreeSet;

/// A book to be laid out: the count of variables and the clauses.
#[derive(Clone, Debug, PartialEq, Eq)]
pub struct Draft {
    pub variables: usize,
    pub clauses: Vec<Vec<Literal>>,
}

impl Draft {
    pub fn of(variables: usize, clauses: &[&[Literal]]) -> Draft {
        Draft {
            variables,
            clauses: clauses.iter().map(|clause| clause.to_vec()).collect(),
        }
    }

    pub fn book(&self) -> Book {
        Book::of(self.variables, &self.clauses)
    }

    pub fn literals(&self) -> usize {
        self.clauses.iter().map(|clause| clause.len()).sum()
    }

    /// The table with nothing behind it.
    pub fn table(&self) -> Table {
        let mut table = Table {
            n: self.variables,
            m: self.clauses.len(),
            lits: Vec::new(),
            offs: vec![0],
        };
        for clause in &self.clauses {
            table.lits.extend(clause.iter().map(|&literal| code_of(literal) as u16));
            table.offs.push(table.lits.len() as u32);
        }
        table
    }

    /// The table with up to four cells of random contents behind each buffer.
    pub fn loose_table(&self, random: &mut Random) -> Table {
        let mut table = self.table();
        let (more_lits, more_offs) = (random.below(5), random.below(5));
        table.lits.extend(random.u16s(more_lits));
        table.offs.extend(random.u32s(more_offs));
        table
    }

    /// The text, plainly laid out.
    pub fn plain_text(&self) -> Vec<u8> {
        let mut text = format!("p cnf {} {}\n", self.variables, self.clauses.len());
        for clause in &self.clauses {
            for literal in clause {
                text.push_str(&format!("{} ", literal));
            }
            text.push_str("0\n");
        }
        text.into_bytes()
    }

    /// The text in a random layout that document 01 allows: comments, blanks, line ends, clauses over lines, repeated literals.
    pub fn loose_text(&self, random: &mut Random) -> Vec<u8> {
        let line_end: &[u8] = if random.chance(1, 3) { b"\r\n" } else { b"\n" };
        let mut text = Vec::new();
        for _ in 0..random.below(4) {
            text.extend_from_slice(COMMENTS[random.below(COMMENTS.len())]);
            text.extend_from_slice(line_end);
        }
        text.push(b'p');
        blanks(random, &mut text, 1);
        text.extend_from_slice(b"cnf");
        blanks(random, &mut text, 1);
        text.extend_from_slice(self.variables.to_string().as_bytes());
        blanks(random, &mut text, 1);
        text.extend_from_slice(self.clauses.len().to_string().as_bytes());
        blanks(random, &mut text, 0);
        text.extend_from_slice(line_end);
        let style = random.below(3);
        for clause in &self.clauses {
            for (index, literal) in clause.iter().enumerate() {
                text.extend_from_slice(literal.to_string().as_bytes());
                apart(random, &mut text, style);
                if random.chance(1, 20) {
                    // A literal that was there before is dropped.
                    text.extend_from_slice(clause[random.below(index + 1)].to_string().as_bytes());
                    apart(random, &mut text, style);
                }
            }
            text.push(b'0');
            if style == 0 {
                text.extend_from_slice(line_end);
            } else {
                apart(random, &mut text, style);
            }
        }
        if random.chance(1, 3) && self.clauses.len() + text.len() > 0 {
            // No final line end; behind the problem line alone it may stay as it is.
            while !self.clauses.is_empty() && text.last().map_or(false, |byte| *byte != b'0') {
                text.pop();
            }
        }
        text
    }
}

/// Lines that are right comments.
const COMMENTS: [&[u8]; 8] = [
    b"c",
    b"c ",
    b"c\t",
    b"c rules",
    b"c\tp cnf 1 1",
    b"c \r left alone",
    b"c c \x00\xff",
    b"c  1 0",
];

fn blanks(random: &mut Random, text: &mut Vec<u8>, least: usize) {
    let count = if random.chance(3, 4) { least } else { least + random.below(3) };
    for _ in 0..count {
        text.push(if random.chance(4, 5) { b' ' } else { b'\t' });
    }
}

/// One or more of the four bytes that stand between numbers.
fn apart(random: &mut Random, text: &mut Vec<u8>, style: usize) {
    if style == 0 {
        text.push(b' ');
        return;
    }
    let count = if random.chance(3, 4) { 1 } else { random.between(1, 4) };
    for _ in 0..count {
        let byte = if style == 1 {
            *random.pick(b"  \t\n")
        } else {
            *random.pick(b" \t\r\n")
        };
        text.push(byte);
    }
}

/// The words of these entries, and `more` words of random contents behind them.
pub fn stack_words(random: &mut Random, entries: &[Entry], more: usize) -> Vec<u32> {
    let mut words = Vec::with_capacity(2 * entries.len() + more);
    for entry in entries {
        words.push(entry.clause as u32);
        words.push(code_of(entry.literal));
    }
    words.extend(random.u32s(more));
    words
}

/// A clause of up to `len` different literals over the variables from 1 to `variables`; `both` lets a variable stand beside its negation.
pub fn clause(random: &mut Random, variables: usize, len: usize, both: bool) -> Vec<Literal> {
    let mut set = BTreeSet::new();
    let mut stored = Vec::new();
    if variables == 0 {
        return stored;
    }
    let most = if both { 2 * variables } else { variables };
    while stored.len() < len.min(most) {
        let variable = random.between(1, variables) as Literal;
        let literal = if random.chance(1, 2) { variable } else { -variable };
        if set.contains(&literal) || (!both && set.contains(&-literal)) {
            continue;
        }
        set.insert(literal);
        stored.push(literal);
    }
    stored
}

/// How many shapes `draft` knows, and how many of them are small.
pub const SHAPES: usize = 10;
pub const SMALL_SHAPES: usize = 6;

/// A random book of a shape. The shapes from `SMALL_SHAPES` on are large.
pub fn draft(random: &mut Random, shape: usize) -> Draft {
    let mut clauses = Vec::new();
    let variables;
    match shape {
        // Tiny, with empty clauses and all kinds of ties.
        0 => {
            variables = random.below(4);
            for _ in 0..random.below(7) {
                let len = random.below(4);
                clauses.push(clause(random, variables, len, true));
            }
        }
        // Some variables, short clauses, at times too many to be satisfied.
        1 => {
            variables = random.between(2, 12);
            for _ in 0..random.below(3 * variables) {
                let len = random.between(1, 4);
                clauses.push(clause(random, variables, len, false));
            }
        }
        // Units and pairs.
        2 => {
            variables = random.between(1, 10);
            for _ in 0..random.below(16) {
                let len = random.between(1, 2);
                let both = random.chance(1, 8);
                clauses.push(clause(random, variables, len, both));
            }
        }
        // Tautologies among others.
        3 => {
            variables = random.between(1, 8);
            for _ in 0..random.below(14) {
                let mut stored = clause(random, variables, 3, true);
                if random.chance(1, 3) && !stored.is_empty() {
                    let negation = -*random.pick(&stored);
                    if !stored.contains(&negation) {
                        let at = random.below(stored.len() + 1);
                        stored.insert(at, negation);
                    }
                }
                clauses.push(stored);
            }
        }
        // Equal clauses, in the same and in another order.
        4 => {
            variables = random.between(1, 7);
            for _ in 0..random.below(14) {
                if clauses.is_empty() || random.chance(1, 2) {
                    let len = random.below(4);
                    clauses.push(clause(random, variables, len, false));
                } else {
                    let mut stored: Vec<Literal> = random.pick(&clauses).clone();
                    if random.chance(1, 2) {
                        random.shuffle(&mut stored);
                    }
                    clauses.push(stored);
                }
            }
        }
        // Definitions: x is a and b; most of them go, some after others.
        5 => {
            variables = random.between(3, 14);
            for x in 3..=variables as Literal {
                if random.chance(1, 4) {
                    continue;
                }
                let mut literal = || {
                    let variable = random.between(1, x as usize - 1) as Literal;
                    if random.chance(1, 2) {
                        variable
                    } else {
                        -variable
                    }
                };
                let (a, b) = (literal(), literal());
                clauses.push(vec![-x, a]);
                if a != b {
                    clauses.push(vec![b, -x]);
                    clauses.push(vec![x, -a, -b]);
                } else {
                    clauses.push(vec![x, -a]);
                }
            }
            for _ in 0..random.below(4) {
                let len = random.between(1, 3);
                clauses.push(clause(random, variables, len, false));
            }
            random.shuffle(&mut clauses);
        }
        // Long clauses, up to 1,000 literals, few of them.
        6 => {
            variables = random.between(20, 2_000);
            for _ in 0..random.between(1, 16) {
                let len = *random.pick(&[0, 1, 2, 3, 40, 200, 999, 1_000]);
                let both = random.chance(1, 4);
                clauses.push(clause(random, variables, len, both));
            }
        }
        // Many variables, short clauses.
        7 => {
            variables = random.between(100, 2_000);
            for _ in 0..random.between(50, 400) {
                let len = random.between(1, 3);
                clauses.push(clause(random, variables, len, false));
            }
        }
        // A long chain, given so that each sweep may remove few.
        8 => {
            variables = random.between(20, 120);
            for x in 1..variables as Literal {
                clauses.push(vec![-x, x + 1]);
                if random.chance(1, 3) {
                    clauses.push(vec![x, -(x + 1)]);
                }
            }
            if random.chance(1, 2) {
                clauses.push(vec![1]);
            }
            if random.chance(1, 3) {
                clauses.push(vec![-(variables as Literal), 1]);
            }
            match random.below(3) {
                0 => clauses.reverse(),
                1 => random.shuffle(&mut clauses),
                _ => {}
            }
        }
        // Many clauses.
        _ => {
            variables = random.between(50, 2_000);
            for _ in 0..random.between(500, 4_000) {
                let len = random.below(5);
                clauses.push(clause(random, variables, len, false));
            }
        }
    }
    Draft { variables, clauses }
}

/// Values that are drawn towards satisfying the clauses of these numbers: a walk from random values that mends one false clause after the
/// other.
pub fn values_for(random: &mut Random, book: &Book, numbers: &BTreeSet<usize>, steps: usize) -> Vec<u8> {
    let mut values: Vec<u8> = (0..book.variables).map(|_| random.below(2) as u8).collect();
    for _ in 0..steps {
        let bad: Vec<usize> = numbers
            .iter()
            .copied()
            .filter(|number| crate::second::rebuild::is_false(&book.clauses[number], &values))
            .take(8)
            .collect();
        if bad.is_empty() {
            break;
        }
        let clause = &book.clauses[random.pick(&bad)].stored;
        if clause.is_empty() {
            break;
        }
        let variable = random.pick(clause).unsigned_abs() as usize;
        values[variable - 1] = 1 - values[variable - 1];
    }
    values
}
