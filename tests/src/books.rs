//! Families of rule books for the benchmarks: each grows up to document 01's limits, and each book comes with a model.
use crate::random::Random;
use std::fmt::Write;

/// Document 01's limits.
pub const VARIABLES: usize = 2000;
pub const CLAUSES: usize = 4000;
pub const LITERALS: usize = 16000;
pub const CLAUSE_LITERALS: usize = 1000;
pub const TEXT_BYTES: usize = 65536;

/// The variable or its negation.
pub fn signed(random: &mut Random, variable: i32) -> i32 {
    if random.chance(1, 2) {
        variable
    } else {
        -variable
    }
}

/// A rule book as a table, and values under which every rule is true where there is a model.
#[derive(Clone)]
pub struct Book {
    pub n: usize,
    pub lits: Vec<u16>,
    pub offs: Vec<u32>,
    pub model: Vec<u8>,
}

impl Book {
    pub fn new(n: usize) -> Book {
        Book {
            n,
            lits: Vec::new(),
            offs: vec![0],
            model: vec![0; n],
        }
    }

    /// The count of clauses.
    pub fn m(&self) -> usize {
        self.offs.len() - 1
    }

    pub fn push(&mut self, clause: &[i32]) {
        self.lits
            .extend(clause.iter().map(|&x| 2 * x.unsigned_abs() as u16 + (x < 0) as u16));
        self.offs.push(self.lits.len() as u32);
    }

    /// The literals of clause k, from 1.
    pub fn row(&self, k: usize) -> &[u16] {
        &self.lits[self.offs[k - 1] as usize..self.offs[k] as usize]
    }

    /// Whether a DIMACS literal is true under the model.
    fn holds(&self, x: i32) -> bool {
        (self.model[x.unsigned_abs() as usize - 1] == 1) == (x > 0)
    }

    /// Whether a coded literal is true under the values.
    pub fn is_true(values: &[u8], code: u16) -> bool {
        (values[code as usize / 2 - 1] == 1) == (code % 2 == 0)
    }

    /// The book of the clauses that are live, with the same variables.
    pub fn remainder(&self, live: &[bool]) -> Book {
        let mut book = Book {
            model: self.model.clone(),
            ..Book::new(self.n)
        };
        for k in (1..=self.m()).filter(|&k| live[k]) {
            book.lits.extend_from_slice(self.row(k));
            book.offs.push(book.lits.len() as u32);
        }
        book
    }

    /// The book as DIMACS text.
    pub fn text(&self) -> String {
        let mut text = format!("p cnf {} {}\n", self.n, self.m());
        for k in 1..=self.m() {
            for &code in self.row(k) {
                write!(text, "{} ", dimacs(code)).unwrap();
            }
            text.push_str("0\n");
        }
        text
    }

    /// Whether the book is within document 01's limits.
    pub fn fits(&self) -> bool {
        self.n <= VARIABLES
            && self.m() <= CLAUSES
            && self.lits.len() <= LITERALS
            && (1..=self.m()).all(|k| self.row(k).len() <= CLAUSE_LITERALS)
            && self.text().len() <= TEXT_BYTES
    }
}

/// A coded literal as DIMACS writes it.
pub fn dimacs(code: u16) -> i32 {
    let v = (code / 2) as i32;
    if code % 2 == 0 {
        v
    } else {
        -v
    }
}

/// A kind of book that can be made in every size.
pub struct Family {
    pub name: &'static str,
    /// How its books are built.
    pub about: &'static str,
    /// Whether its books have unit clauses.
    pub units: bool,
    make: fn(usize, &mut Random) -> Book,
}

impl Family {
    /// The book of a size, in the family's own measure.
    pub fn book(&self, size: usize, seed: u64) -> Book {
        (self.make)(size, &mut Random::of(seed, self.name, size))
    }

    /// The largest size whose book is within the limits, where the next one is not.
    pub fn limit(&self, seed: u64) -> usize {
        let (mut good, mut bad) = (4, CLAUSES + 1);
        while good + 1 < bad {
            let size = (good + bad) / 2;
            if self.book(size, seed).fits() {
                good = size;
            } else {
                bad = size;
            }
        }
        good
    }
}

pub const FAMILIES: [Family; 10] = [
    Family { name: "random 1.7", about: "random clauses of 3 literals with a hidden model, 1.7 for each variable", units: false, make: random_17 },
    Family { name: "random 2", about: "the same, 2 for each variable", units: false, make: random_20 },
    Family { name: "random 3", about: "the same, 3 for each variable", units: false, make: random_30 },
    Family { name: "random 4.3", about: "the same, 4.3 for each variable", units: false, make: random_43 },
    Family {
        name: "configuration",
        about: "groups of 3 to 10 options: at most one by pairs, at least one by a long clause, implications and long choices between groups",
        units: false,
        make: configuration,
    },
    Family {
        name: "circuit, wide",
        about: "a balanced tree of AND gates over shared inputs, three clauses for each gate, and the output's unit",
        units: true,
        make: circuit_wide,
    },
    Family {
        name: "circuit, deep",
        about: "a chain of AND gates over shared inputs, three clauses for each gate, and the output's unit",
        units: true,
        make: circuit_deep,
    },
    Family {
        name: "one a sweep",
        about: "a cycle of three implications that stays, and behind it a chain of implications whose clauses go from the last to the first, one in each sweep",
        units: false,
        make: one_a_sweep,
    },
    Family { name: "long, random", about: "clauses of 1,000 literals, each variable with a random sign", units: false, make: long_random },
    Family {
        name: "long, stuck",
        about: "clauses of the same 1,000 options, and a cycle of implications through these, so that nothing can go",
        units: false,
        make: long_stuck,
    },
];

/// Values for the variables 1 to n.
fn hidden(n: usize, random: &mut Random) -> Vec<u8> {
    (0..n).map(|_| random.chance(1, 2) as u8).collect()
}

/// `m` clauses of three literals over n variables, none false under a hidden model.
fn threes(n: usize, m: usize, random: &mut Random) -> Book {
    let n = n.max(3);
    let mut book = Book {
        model: hidden(n, random),
        ..Book::new(n)
    };
    while book.m() < m {
        let (a, b, c) = (random.below(n) as i32 + 1, random.below(n) as i32 + 1, random.below(n) as i32 + 1);
        let clause = [signed(random, a), signed(random, b), signed(random, c)];
        if a != b && a != c && b != c && clause.iter().any(|&x| book.holds(x)) {
            book.push(&clause);
        }
    }
    book
}

fn random_17(m: usize, random: &mut Random) -> Book {
    threes(m * 10 / 17, m, random)
}

fn random_20(m: usize, random: &mut Random) -> Book {
    threes(m / 2, m, random)
}

fn random_30(m: usize, random: &mut Random) -> Book {
    threes(m / 3, m, random)
}

fn random_43(m: usize, random: &mut Random) -> Book {
    threes(m * 10 / 43, m, random)
}

/// Groups of options until there are m clauses. In the model each group has one option chosen.
fn configuration(m: usize, random: &mut Random) -> Book {
    let mut book = Book::new(0);
    while book.m() < m {
        let first = book.n as i32 + 1;
        let count = 3 + random.below(8);
        let group: Vec<i32> = (first..first + count as i32).collect();
        let chosen = random.below(count);
        book.n += count;
        book.model.extend((0..count).map(|i| (i == chosen) as u8));
        let mut clauses = vec![group.clone()];
        for (i, &a) in group.iter().enumerate() {
            clauses.extend(group[..i].iter().map(|&b| vec![-b, -a]));
        }
        let mut between = 0;
        while first > 1 && between < count {
            let a = group[random.below(count)];
            let mut clause = vec![-a];
            let choices = if between == 0 { 8 } else { 1 };
            for _ in 0..choices {
                let b = random.below(first as usize - 1) as i32 + 1;
                if !clause.contains(&b) {
                    clause.push(b);
                }
            }
            if clause.iter().any(|&x| book.holds(x)) {
                clauses.push(clause);
                between += 1;
            }
        }
        for clause in clauses {
            if book.m() < m {
                book.push(&clause);
            }
        }
    }
    book
}

/// A new gate g, which is true exactly where a and b are: three clauses.
fn gate(book: &mut Book, a: i32, b: i32) -> i32 {
    let value = book.holds(a) && book.holds(b);
    book.n += 1;
    book.model.push(value as u8);
    let g = book.n as i32;
    book.push(&[-g, a]);
    book.push(&[-g, b]);
    book.push(&[g, -a, -b]);
    g
}

/// The output is to have the value that it has in the model.
fn output(book: &mut Book, x: i32) {
    let unit = if book.holds(x) { x } else { -x };
    book.push(&[unit]);
}

/// Inputs for circuits of m clauses, each used about twice.
fn inputs(m: usize, random: &mut Random) -> (Book, usize) {
    let gates = (m - 1) / 3;
    let n = ((gates + 1) / 2).max(2);
    (
        Book {
            model: hidden(n, random),
            ..Book::new(n)
        },
        gates,
    )
}

fn circuit_wide(m: usize, random: &mut Random) -> Book {
    let (mut book, gates) = inputs(m, random);
    let n = book.n;
    let mut layer: Vec<i32> = Vec::new();
    while layer.len() < gates + 1 {
        let v = random.below(n) as i32 + 1;
        if layer.last().map_or(true, |x| x.abs() != v) {
            layer.push(signed(random, v));
        }
    }
    while layer.len() > 1 {
        let mut above = Vec::new();
        for pair in layer.chunks(2) {
            above.push(match *pair {
                [a, b] => {
                    let g = gate(&mut book, a, b);
                    signed(random, g)
                }
                _ => pair[0],
            });
        }
        layer = above;
    }
    output(&mut book, layer[0]);
    book
}

fn circuit_deep(m: usize, random: &mut Random) -> Book {
    let (mut book, gates) = inputs(m, random);
    let n = book.n;
    let mut last: i32 = 1;
    for _ in 0..gates {
        let v = loop {
            let v = random.below(n) as i32 + 1;
            if v != last.abs() {
                break v;
            }
        };
        let (a, b) = (signed(random, last), signed(random, v));
        last = gate(&mut book, a, b);
    }
    output(&mut book, last);
    book
}

/// Clauses 1 to 3 are `-1 2`, `-2 3`, `-3 1`, of which none is ever blocked; clause k above them is `-(k-1) k`. Its second literal blocks it once clause
/// k + 1 is gone, and its first never does. So the last clause goes in the first sweep, and each sweep removes the one before.
fn one_a_sweep(m: usize, _: &mut Random) -> Book {
    let mut book = Book {
        model: vec![1; m],
        ..Book::new(m)
    };
    book.push(&[-1, 2]);
    book.push(&[-2, 3]);
    book.push(&[-3, 1]);
    for k in 4..=m as i32 {
        book.push(&[1 - k, k]);
    }
    book
}

/// Whether elimination took one clause in each sweep: the entries of one sweep have rising numbers, so it did exactly if the numbers fall.
pub fn falls(stack: &[u32], count: usize) -> bool {
    (1..count).all(|i| stack[2 * i] < stack[2 * i - 2])
}

fn long_random(clauses: usize, random: &mut Random) -> Book {
    let n = CLAUSE_LITERALS;
    let mut book = Book {
        model: hidden(n, random),
        ..Book::new(n)
    };
    while book.m() < clauses {
        let clause: Vec<i32> = (1..=n as i32).map(|v| signed(random, v)).collect();
        if clause.iter().any(|&x| book.holds(x)) {
            book.push(&clause);
        }
    }
    book
}

/// The implications come first. A long clause's literal v meets the implication `-v v+1` alone, and an implication meets the long clauses and its two
/// neighbours: no resolvent is a tautology, and each test goes to its end.
fn long_stuck(clauses: usize, _: &mut Random) -> Book {
    let n = CLAUSE_LITERALS as i32;
    let mut book = Book {
        model: vec![1; n as usize],
        ..Book::new(n as usize)
    };
    for v in 1..=n {
        book.push(&[-v, v % n + 1]);
    }
    for i in 0..clauses as i32 {
        let clause: Vec<i32> = (0..n).map(|v| (v + i) % n + 1).collect();
        book.push(&clause);
    }
    book
}
