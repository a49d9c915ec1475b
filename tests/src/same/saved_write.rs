//! The writer of the saved form: each field is written into the unused tail of the output.
use super::index::Live;
use super::stack::{all_blocking, entries, open_stack};
use super::table::Table;
use super::Refusal;

/// Numbers one after the other, high byte first.
fn put_numbers(out: &mut [u8], numbers: &[u16]) {
    for (cell, x) in out.chunks_exact_mut(2).zip(numbers) {
        cell.copy_from_slice(&x.to_be_bytes());
    }
}

/// One field: its tag, the length of its value, the numbers before the literals, and the literals. Answers how many bytes it has.
fn put_field(out: &mut [u8], tag: u8, front: &[u16], lits: &[u16]) -> usize {
    let len = 2 * (front.len() + lits.len());
    out[0] = tag;
    put_numbers(&mut out[1..], &[len as u16]);
    put_numbers(&mut out[3..], front);
    put_numbers(&mut out[3 + 2 * front.len()..], lits);
    len + 3
}

fn put_form(out: &mut [u8], table: &Table, live: &Live, stack: &[u32], count: usize) {
    let total = table.offs[table.m];
    let mut at = put_field(out, 1, &[table.n as u16, table.m as u16, total as u16, count as u16], &[]);
    for k in (1..=table.m).filter(|&k| live[k]) {
        at += put_field(&mut out[at..], 2, &[k as u16], table.row(k));
    }
    for (clause, literal) in entries(stack, count) {
        at += put_field(&mut out[at..], 3, &[clause as u16, literal as u16], table.row(clause as usize));
    }
    put_field(&mut out[at..], 127, &[], &[]);
}

/// Writes the saved form of the table and its stack, and answers its length.
pub fn write_saved(n: usize, m: usize, lits: &[u16], offs: &[u32], stack: &[u32], count: usize, out: &mut [u8]) -> Result<usize, Refusal> {
    let table = Table { n, m, lits, offs };
    let mut live = [false; 4001];
    open_stack(&table, stack, count, true, &mut live)?;
    all_blocking(&table, stack, count, &mut live)?;
    let len = 14 + 5 * m + 2 * count + 2 * offs[m] as usize;
    if out.len() < len {
        return Err(Refusal::NoRoom);
    }
    put_form(out, &table, &live, stack, count);
    Ok(len)
}
