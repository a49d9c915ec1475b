//! The test of one literal, through an occurrence index: for each literal the clauses that hold it, rising, as a chain through the literals' places.
use super::rules::{hinders, hinders_plain, negated};
use super::table::Table;

/// The marks of the live clauses, by number.
pub type Live = [bool; 4001];

/// Marks the clauses 1 to m live, and no other.
pub fn mark_all(m: usize, live: &mut Live) {
    live.fill(false);
    live[1..=m].fill(true);
}

/// The first clause of each literal's chain, for each place in the table the next clause of that literal's chain, and the marks of the clauses that are
/// no tautologies.
pub struct Index {
    heads: [u16; 4002],
    nexts: [u16; 16000],
    plain: [bool; 4001],
}

impl Index {
    pub fn new() -> Index {
        Index {
            heads: [0; 4002],
            nexts: [0; 16000],
            plain: [false; 4001],
        }
    }

    /// Enters the clauses of a sound table, from the last to the first, into a new index.
    pub fn enter(&mut self, table: &Table) {
        for k in (1..=table.m).rev() {
            let (start, end) = table.bounds(k);
            for (next, &x) in self.nexts[start..end].iter_mut().zip(&table.lits[start..end]) {
                let head = &mut self.heads[x as usize];
                *next = *head;
                *head = k as u16;
            }
        }
        self.mark_plain(table);
    }

    /// Marks the clauses that are no tautologies, by stamps.
    fn mark_plain(&mut self, table: &Table) {
        let mut seen = [0u16; 4002];
        for k in 1..=table.m {
            self.plain[k] = table.row(k).iter().all(|&x| {
                seen[x as usize] = k as u16;
                seen[negated(x) as usize] != k as u16
            });
        }
    }

    /// Whether clause j keeps the literal l from blocking clause k.
    fn hinders(&self, table: &Table, k: usize, l: u16, j: usize) -> bool {
        if self.plain[k] && self.plain[j] {
            hinders_plain(table.row(k), l, table.row(j))
        } else {
            hinders(table.row(k), l, table.row(j))
        }
    }

    /// The next clause above clause k that holds x, a literal of clause k; 0 where there is none.
    fn next_holder(&self, table: &Table, k: usize, x: u16) -> usize {
        let (start, end) = table.bounds(k);
        let row = &table.lits[start..end];
        let nexts = &self.nexts[start..end];
        row.iter().position(|&y| y == x).map_or(0, |i| nexts[i] as usize)
    }

    /// Whether the literal l of clause k blocks it among the live clauses.
    pub fn blocks(&self, table: &Table, live: &Live, k: usize, l: u16) -> bool {
        let z = negated(l);
        let mut j = self.heads[z as usize] as usize;
        while j != 0 {
            if live[j] && self.hinders(table, k, l, j) {
                return false;
            }
            j = self.next_holder(table, j, z);
        }
        true
    }

    /// The first literal of clause k, in stored order, that blocks it among the live clauses, if it is live itself.
    pub fn turn_of(&self, table: &Table, live: &Live, k: usize) -> Option<u16> {
        if live[k] {
            table.row(k).iter().copied().find(|&l| self.blocks(table, live, k, l))
        } else {
            None
        }
    }
}
