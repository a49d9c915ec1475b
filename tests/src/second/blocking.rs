//! The blocking rule (source document 002, Definition 2).

use super::{Book, Literal};
use std::collections::BTreeSet;

/// "literal l of clause C blocks C if, for every live clause C' that holds the negation of l, the set C together with (C' without the
/// negation of l) is a tautology, that is, holds some variable and its negation. C itself is among the live clauses."
pub fn blocks(book: &Book, live: &BTreeSet<usize>, number: usize, l: Literal) -> bool {
    let c = &book.clauses[&number].set;
    let holders = match book.holders.get(&-l) {
        Some(holders) => holders,
        None => return true,
    };
    holders.iter().filter(|other| live.contains(other)).all(|other| {
        let c_prime = &book.clauses[other].set;
        // The set C together with (C' without the negation of l).
        let together = |literal: Literal| c.contains(&literal) || (literal != -l && c_prime.contains(&literal));
        c.iter()
            .chain(c_prime.iter())
            .any(|&literal| together(literal) && together(-literal))
    })
}

/// "the first literal in its stored order that blocks it", or none. "An empty clause is never blocked."
pub fn first_blocking(book: &Book, live: &BTreeSet<usize>, number: usize) -> Option<Literal> {
    book.clauses[&number]
        .stored
        .iter()
        .copied()
        .find(|&l| blocks(book, live, number, l))
}
