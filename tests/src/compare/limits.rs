//! Both sides of every limit of a table: variables, clauses, literals of a clause and in all, and the room of each call.

use super::inputs::{stack_words, Draft};
use super::shapes::through_all_doors;
use super::{Compare, Table};
use crate::second::removal::eliminate;
use crate::second::{Entry, Literal};

/// A clause of `len` literals over the first variables, each variable once.
fn straight(len: usize) -> Vec<Literal> {
    (1..=len as Literal).collect()
}

/// A clause of `len` literals, each variable beside its negation.
fn paired(len: usize) -> Vec<Literal> {
    (0..len as Literal)
        .map(|index| if index % 2 == 0 { index / 2 + 1 } else { -(index / 2 + 1) })
        .collect()
}

/// Books at their limits and beyond them.
fn drafts() -> Vec<Draft> {
    let mut drafts = Vec::new();
    for n in [1_999, 2_000, 2_001] {
        drafts.push(Draft {
            variables: n,
            clauses: vec![vec![n as Literal, 1], vec![-(n as Literal)]],
        });
    }
    for m in [3_999, 4_000, 4_001] {
        drafts.push(Draft {
            variables: 1,
            clauses: vec![vec![]; m],
        });
        drafts.push(Draft {
            variables: 1,
            clauses: vec![vec![1]; m],
        });
        // Pairs that hold each other's negations twice.
        let pair = |k: usize| -> Vec<Literal> {
            let x = (k / 2 % 1_000 * 2 + 1) as Literal;
            if k % 2 == 0 {
                vec![x, x + 1]
            } else {
                vec![-x, -(x + 1)]
            }
        };
        drafts.push(Draft {
            variables: 2_000,
            clauses: (0..m).map(pair).collect(),
        });
    }
    for len in [999, 1_000, 1_001] {
        drafts.push(Draft {
            variables: 2_000,
            clauses: vec![straight(len)],
        });
        drafts.push(Draft {
            variables: 2_000,
            clauses: vec![vec![], paired(len), vec![-1]],
        });
    }
    // 15,999, 16,000 and 16,001 literals in all, in clauses of 1,000 and in clauses of 4.
    for last in [999, 1_000] {
        let mut clauses = vec![straight(1_000); 15];
        clauses.push(straight(last));
        drafts.push(Draft {
            variables: 1_000,
            clauses: clauses.clone(),
        });
        if last == 1_000 {
            clauses.push(vec![1]);
            drafts.push(Draft { variables: 1_000, clauses });
        }
    }
    for last in [3, 4, 5] {
        let mut clauses: Vec<Vec<Literal>> = (0..3_999)
            .map(|k| {
                let x = k % 1_996 + 1;
                vec![x, -(x + 1), x + 2, -(x + 3)]
            })
            .collect();
        clauses.push(straight(last));
        drafts.push(Draft { variables: 2_000, clauses });
    }
    drafts
}

/// How many cases this group has.
pub fn cases() -> usize {
    drafts().len() + 3
}

pub fn run(compare: &mut Compare, case: usize) {
    let mut drafts = drafts();
    if case >= drafts.len() {
        match case - drafts.len() {
            0 => rooms(compare),
            1 => longest_form(compare),
            _ => wide_offsets(compare),
        }
        return;
    }
    let draft = drafts.swap_remove(case);
    let table = draft.table();
    if compare.is_sound(&table) {
        through_all_doors(compare, &draft);
        return;
    }
    let words: Vec<u32> = compare.old(2 * table.m);
    let values = vec![0; table.n];
    for k in [0, 1, table.m, table.m + 1] {
        compare.clause_literals(&table, k);
    }
    compare.eliminate(&table, words.len());
    compare.remove(&table, &words, 0, 1, 2);
    compare.next_blocked(&table, &words, 0);
    compare.check_stack(&table, &words, 0);
    compare.rebuild(&table, &words, 0, &values);
    compare.write_saved(&table, &words, 0, 70_000);
    let text = draft.loose_text(&mut compare.random);
    compare.read_text(&text);
    compare.read_text(&draft.plain_text());
}

/// One cell less than each room, the room, and one more; the stack's count up to m and beyond.
fn rooms(compare: &mut Compare) {
    let draft = super::known::k1();
    let book = draft.book();
    let table = draft.table();
    let entries = eliminate(&book);
    let form = crate::second::saved::form(&book, &entries);
    let text = draft.plain_text();
    for lits_len in [0, 10, 15_999, 16_000, 16_001] {
        for offs_len in [0, 6, 4_000, 4_001, 4_002] {
            compare.read_text_into(&text, lits_len, offs_len);
            compare.read_text_into(b"not a text", lits_len, offs_len);
            compare.read_text_into(&vec![b' '; 65_537], lits_len, offs_len);
            for stack_len in [0, 4, 7_999, 8_000, 8_001] {
                compare.read_saved_into(&form, lits_len, offs_len, stack_len);
                compare.read_saved_into(b"not a form", lits_len, offs_len, stack_len);
            }
        }
    }
    for stack_len in [0, 4, 9, 10, 11, 1_000] {
        compare.eliminate(&table, stack_len);
        for count in [0, 1, 2, 3, 5, 6, usize::MAX, usize::MAX / 2 + 1] {
            let mut words = stack_words(&mut compare.random, &entries, stack_len);
            words.truncate(stack_len);
            compare.remove(&table, &words, count, 1, 8);
            compare.remove(&table, &words, count, 2, 10);
            compare.next_blocked(&table, &words, count);
            compare.check_stack(&table, &words, count);
            for values_len in [0, 4, 5, 6] {
                for value in [0, 1, 2, 255] {
                    compare.rebuild(&table, &words, count, &vec![value; values_len]);
                }
            }
            for out_len in [0, 58, 59, 60, 61, 62, 63, 64, 60_014] {
                compare.write_saved(&table, &words, count, out_len);
            }
        }
    }
    // No variables and no clauses need no cells but one offset.
    for offs in [vec![], vec![0], vec![1], vec![0, 7]] {
        let table = Table {
            n: 0,
            m: 0,
            lits: vec![],
            offs,
        };
        compare.is_sound(&table);
        compare.clause_literals(&table, 0);
        compare.clause_literals(&table, 1);
        compare.eliminate(&table, 0);
        compare.remove(&table, &[], 0, 1, 2);
        compare.next_blocked(&table, &[], 0);
        compare.check_stack(&table, &[], 0);
        compare.check_stack(&table, &[], 1);
        compare.rebuild(&table, &[], 0, &[]);
        compare.write_saved(&table, &[], 0, 13);
        compare.write_saved(&table, &[], 0, 14);
    }
}

/// "The longest form has 60,014 bytes.": 4,000 clauses, all removed, and 16,000 literals.
fn longest_form(compare: &mut Compare) {
    let draft = Draft {
        variables: 4,
        clauses: vec![vec![1, 2, -3, 4]; 4_000],
    };
    let table = draft.table();
    let entries: Vec<Entry> = (1..=4_000).map(|clause| Entry { clause, literal: 1 }).collect();
    let words = stack_words(&mut compare.random, &entries, 0);
    for out_len in [60_013, 60_014, 60_015] {
        let left = compare.write_saved(&table, &words, 4_000, out_len);
        if left.done() {
            compare.demand(left.said.cells[1] == 60_014, "the longest form has 60,014 bytes");
            compare.read_saved(&left.out[..60_014]);
            compare.read_saved(&left.out[..60_013]);
            compare.read_saved(&left.out);
        }
    }
    compare.eliminate(&table, 8_000);
    compare.eliminate(&table, 7_999);
    compare.next_blocked(&table, &words, 3_999);
    compare.remove(&table, &words, 3_999, 4_000, 2);
    compare.remove(&table, &words, 4_000, 4_000, 2);
    compare.rebuild(&table, &words, 4_000, &[0, 0, 1, 0]);
}

/// Literal buffers longer than 16,000 cells, and offsets that reach into them.
fn wide_offsets(compare: &mut Compare) {
    for lits_len in [15_999, 16_000, 16_001, 70_000] {
        for last in [
            15_000u32,
            15_001,
            15_999,
            16_000,
            16_001,
            65_536,
            65_537,
            69_999,
            70_000,
            70_001,
            u32::MAX,
        ] {
            let lits: Vec<u16> = (0..lits_len).map(|at| (at % 1_000 + 2) as u16).collect();
            let mut offs: Vec<u32> = (0..=15).map(|k| k * 1_000).collect();
            offs.push(last);
            let table = Table { n: 501, m: 16, lits, offs };
            compare.is_sound(&table);
            compare.clause_literals(&table, 16);
            compare.clause_literals(&table, 1);
        }
    }
}
