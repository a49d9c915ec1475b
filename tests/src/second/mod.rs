//! The second program: document 01 read a second time, with sets and maps, to be compared with the library. It takes nothing from the
//! library.
//!
//! This file has the desk's words. `table` reads a lent table, `stack` a lent stack; `blocking`, `removal`, `rebuild`, `text`, `saved` and
//! `shrink` have one idea each; `calls` puts them together into the ten calls on lent buffers.

pub mod blocking;
pub mod calls;
pub mod rebuild;
pub mod removal;
pub mod saved;
pub mod shrink;
pub mod stack;
pub mod table;
pub mod text;

use std::collections::{BTreeMap, BTreeSet};

/// "n is at most 2,000".
pub const VARIABLES: usize = 2_000;
/// "m at most 4,000".
pub const CLAUSES: usize = 4_000;
/// "each clause has at most 1,000 literals".
pub const CLAUSE_LITERALS: usize = 1_000;
/// "offset m is at most 16,000".
pub const LITERALS: usize = 16_000;
/// "A text is at most 65,536 bytes."
pub const TEXT_BYTES: usize = 65_536;
/// "the text reader and the saved form's reader need 16,000 literals and 4,001 offsets, and the latter 8,000 stack words".
pub const ROOM_LITERALS: usize = 16_000;
pub const ROOM_OFFSETS: usize = 4_001;
pub const ROOM_STACK: usize = 8_000;

/// A literal as the text writes it: v for variable v, -v for its negation.
pub type Literal = i32;

/// "Variable v is coded 2v, its negation 2v+1."
pub fn code_of(literal: Literal) -> u32 {
    if literal > 0 {
        2 * literal as u32
    } else {
        2 * literal.unsigned_abs() + 1
    }
}

/// The literal that a code from 2 on stands for.
pub fn literal_of(code: u32) -> Literal {
    let variable = (code / 2) as i32;
    if code % 2 == 0 {
        variable
    } else {
        -variable
    }
}

/// A clause: "a set of literals", beside the order in which they are stored.
#[derive(Clone, Debug, PartialEq, Eq)]
pub struct Clause {
    pub stored: Vec<Literal>,
    pub set: BTreeSet<Literal>,
}

/// A book: "a numbered list of clauses; two clauses may be equal and still count separately". Numbers start from 1.
#[derive(Clone, Debug, PartialEq, Eq)]
pub struct Book {
    pub variables: usize,
    pub clauses: BTreeMap<usize, Clause>,
    /// For each literal the numbers of the clauses that hold it.
    pub holders: BTreeMap<Literal, BTreeSet<usize>>,
}

impl Book {
    /// The book with these clauses, numbered from 1 in this order.
    pub fn of(variables: usize, clauses: &[Vec<Literal>]) -> Book {
        let mut book = Book {
            variables,
            clauses: BTreeMap::new(),
            holders: BTreeMap::new(),
        };
        for (index, stored) in clauses.iter().enumerate() {
            let number = index + 1;
            for &literal in stored {
                book.holders.entry(literal).or_default().insert(number);
            }
            let clause = Clause {
                stored: stored.clone(),
                set: stored.iter().copied().collect(),
            };
            book.clauses.insert(number, clause);
        }
        book
    }

    /// Whether a clause of this number exists and holds this literal.
    pub fn holds(&self, number: usize, literal: Literal) -> bool {
        match self.clauses.get(&number) {
            Some(clause) => clause.set.contains(&literal),
            None => false,
        }
    }

    /// The numbers of all clauses.
    pub fn numbers(&self) -> BTreeSet<usize> {
        self.clauses.keys().copied().collect()
    }

    /// The numbers of the live clauses: "A clause not on the stack is live."
    pub fn live(&self, stack: &[Entry]) -> BTreeSet<usize> {
        let mut live = self.numbers();
        for entry in stack {
            live.remove(&entry.clause);
        }
        live
    }
}

/// An entry of the stack: a removal, "each naming a clause and the literal that blocked it".
#[derive(Clone, Copy, Debug, PartialEq, Eq)]
pub struct Entry {
    pub clause: usize,
    pub literal: Literal,
}

/// A refusal: its number and place, and in words what it was given for. The words are not compared; they are counted.
#[derive(Clone, Copy, Debug, PartialEq, Eq)]
pub struct Refusal {
    pub number: usize,
    pub place: usize,
    pub why: &'static str,
}

/// The refusal of this number at this place.
pub fn refuse<T>(number: usize, place: usize, why: &'static str) -> Result<T, Refusal> {
    Err(Refusal { number, place, why })
}
