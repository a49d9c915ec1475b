//! Answers of fewer than four cells: every door says false, and nothing has changed.

use super::inputs::{draft, stack_words, SMALL_SHAPES};
use super::{known, Compare};
use crate::second::code_of;
use crate::second::removal::eliminate;

pub fn run(compare: &mut Compare, case: usize) {
    compare.answer_cells = Some(case % 4);
    let shape = compare.random.below(SMALL_SHAPES);
    let drawn = if case < 8 { known::k1() } else { draft(&mut compare.random, shape) };
    let mut table = drawn.loose_table(&mut compare.random);
    let m = table.m;
    let entries = eliminate(&drawn.book());
    let count = compare.random.below(entries.len() + 1);
    let words = stack_words(&mut compare.random, &entries[..count], 2 * (m - count));
    let next = entries
        .get(count)
        .map_or((0, 0), |entry| (entry.clause as u32, code_of(entry.literal)));
    if compare.random.chance(1, 4) {
        // Refused or not makes no difference.
        table.m += 1;
    }
    let values = vec![0; table.n];
    let form = crate::second::saved::form(&drawn.book(), &entries);
    compare.is_sound(&table);
    compare.clause_literals(&table, 1);
    compare.read_text(&drawn.plain_text());
    compare.read_text_into(b"", 3, 3);
    compare.eliminate(&table, 2 * m);
    compare.remove(&table, &words, count, next.0, next.1);
    compare.next_blocked(&table, &words, count);
    compare.check_stack(&table, &words, count);
    compare.rebuild(&table, &words, count, &values);
    compare.write_saved(&table, &words, count, form.len() + 100);
    compare.read_saved(&form);
    compare.read_saved_into(b"", 3, 3, 3);
}
