//! The ten calls on lent buffers: which refusal comes first, which cells change, and what is answered. The answer's four cells are those of
//! include/broodchamber.h.
//!
//! "Every refusal gives its number and place and changes no lent byte or word. A success changes only the part that carries the answer.":
//! each call first makes all its tests, and then writes.

use super::stack::{check, entries_of, room};
use super::table::{book_of, fault, layout, stretch};
use super::{code_of, rebuild, refuse, removal, saved, text, Book, Entry, Refusal, ROOM_LITERALS, ROOM_OFFSETS, ROOM_STACK};

/// What a call must say: its four cells ("0, or the refusal's number", "the first value, or the refusal's place", the second and the third
/// value; "Cells that carry nothing are 0"), and in words why.
#[derive(Clone, Copy, Debug, PartialEq, Eq)]
pub struct Said {
    pub cells: [usize; 4],
    pub why: &'static str,
}

/// The three values of a success, or a refusal.
type Values = Result<[usize; 3], Refusal>;

fn said(values: Values) -> Said {
    match values {
        Ok(values) => Said {
            cells: [0, values[0], values[1], values[2]],
            why: "done",
        },
        Err(refusal) => Said {
            cells: [refusal.number, refusal.place, 0, 0],
            why: refusal.why,
        },
    }
}

pub fn is_sound(n: usize, m: usize, lits: &[u16], offs: &[u32]) -> bool {
    fault(n, m, lits, offs).is_none()
}

pub fn clause_literals(n: usize, m: usize, lits: &[u16], offs: &[u32], k: usize) -> Said {
    let (start, length) = stretch(n, m, lits, offs, k);
    said(Ok([start, length, 0]))
}

pub fn read_text(bytes: &[u8], lits: &mut [u16], offs: &mut [u32]) -> Said {
    said(text_read(bytes, lits, offs))
}

pub fn eliminate(n: usize, m: usize, lits: &[u16], offs: &[u32], stack: &mut [u32]) -> Said {
    said(eliminated(n, m, lits, offs, stack))
}

#[allow(clippy::too_many_arguments)]
pub fn remove(n: usize, m: usize, lits: &[u16], offs: &[u32], stack: &mut [u32], count: usize, clause: u32, literal: u32) -> Said {
    said(removed(n, m, lits, offs, stack, count, clause, literal))
}

pub fn next_blocked(n: usize, m: usize, lits: &[u16], offs: &[u32], stack: &[u32], count: usize) -> Said {
    said(asked(n, m, lits, offs, stack, count))
}

pub fn check_stack(n: usize, m: usize, lits: &[u16], offs: &[u32], stack: &[u32], count: usize) -> Said {
    said(checked(n, m, lits, offs, stack, count).map(|_| [0, 0, 0]))
}

pub fn rebuild(n: usize, m: usize, lits: &[u16], offs: &[u32], stack: &[u32], count: usize, vals: &mut [u8]) -> Said {
    said(rebuilt(n, m, lits, offs, stack, count, vals))
}

pub fn write_saved(n: usize, m: usize, lits: &[u16], offs: &[u32], stack: &[u32], count: usize, out: &mut [u8]) -> Said {
    said(form_written(n, m, lits, offs, stack, count, out))
}

pub fn read_saved(bytes: &[u8], lits: &mut [u16], offs: &mut [u32], stack: &mut [u32]) -> Said {
    said(form_read(bytes, lits, offs, stack))
}

/// Lays the book at the fronts of the buffers.
fn lay_book(book: &Book, lits: &mut [u16], offs: &mut [u32]) {
    let (book_lits, book_offs) = layout(book);
    lits[..book_lits.len()].copy_from_slice(&book_lits);
    offs[..book_offs.len()].copy_from_slice(&book_offs);
}

/// Lays one entry behind `count` old ones.
fn lay_entry(entry: Entry, stack: &mut [u32], count: usize) {
    stack[2 * count] = entry.clause as u32;
    stack[2 * count + 1] = code_of(entry.literal);
}

/// The room of a reader's table: "the text reader and the saved form's reader need 16,000 literals and 4,001 offsets".
fn table_room(lits: &[u16], offs: &[u32]) -> Result<(), Refusal> {
    if lits.len() < ROOM_LITERALS {
        return refuse(3, 0, "short literals");
    }
    if offs.len() < ROOM_OFFSETS {
        return refuse(3, 0, "short offsets");
    }
    Ok(())
}

/// "readers test 3 first, then 2 for a long text, then the first fault by offset"
fn text_read(bytes: &[u8], lits: &mut [u16], offs: &mut [u32]) -> Values {
    table_room(lits, offs)?;
    let book = text::read(bytes)?;
    lay_book(&book, lits, offs);
    Ok([book.variables, book.clauses.len(), 0])
}

/// "Calls on a table: 4, 3"; "Eliminate starts from an empty stack and answers the count of removals."
fn eliminated(n: usize, m: usize, lits: &[u16], offs: &[u32], stack: &mut [u32]) -> Values {
    let book = book_of(n, m, lits, offs)?;
    room(&book, stack)?;
    let entries = removal::eliminate(&book);
    for (count, entry) in entries.iter().enumerate() {
        lay_entry(*entry, stack, count);
    }
    Ok([entries.len(), 0, 0])
}

/// "Calls on a table: 4, 3, 5"
fn book_and_entries(n: usize, m: usize, lits: &[u16], offs: &[u32], stack: &[u32], count: usize) -> Result<(Book, Vec<Entry>), Refusal> {
    let book = book_of(n, m, lits, offs)?;
    room(&book, stack)?;
    let entries = entries_of(&book, stack, count)?;
    Ok((book, entries))
}

/// "4, 3, 5, and then removal 7, 6"
#[allow(clippy::too_many_arguments)]
fn removed(n: usize, m: usize, lits: &[u16], offs: &[u32], stack: &mut [u32], count: usize, clause: u32, literal: u32) -> Values {
    let (book, entries) = book_and_entries(n, m, lits, offs, stack, count)?;
    let entry = removal::remove(&book, &entries, clause, literal)?;
    lay_entry(entry, stack, count);
    Ok([count + 1, 0, 0])
}

/// "4, 3, 5"; "The question answers the lowest live blocked clause with its first blocking literal, or none."
fn asked(n: usize, m: usize, lits: &[u16], offs: &[u32], stack: &[u32], count: usize) -> Values {
    let (book, entries) = book_and_entries(n, m, lits, offs, stack, count)?;
    match removal::next_blocked(&book, &entries) {
        Some(entry) => Ok([entry.clause, code_of(entry.literal) as usize, 0]),
        None => Ok([0, 0, 0]),
    }
}

/// "4, 3, 5, and then ... check 6"
fn checked(n: usize, m: usize, lits: &[u16], offs: &[u32], stack: &[u32], count: usize) -> Result<(Book, Vec<Entry>), Refusal> {
    let (book, entries) = book_and_entries(n, m, lits, offs, stack, count)?;
    check(&book, &entries)?;
    Ok((book, entries))
}

/// "4, 3, 5, and then ... rebuild 6, 8, 9"
fn rebuilt(n: usize, m: usize, lits: &[u16], offs: &[u32], stack: &[u32], count: usize, vals: &mut [u8]) -> Values {
    let book = book_of(n, m, lits, offs)?;
    room(&book, stack)?;
    // "rebuild needs n values"
    if vals.len() < book.variables {
        return refuse(3, 0, "short values");
    }
    let entries = entries_of(&book, stack, count)?;
    check(&book, &entries)?;
    let values = rebuild::rebuild(&book, &entries, vals)?;
    vals[..values.len()].copy_from_slice(&values);
    Ok([0, 0, 0])
}

/// "4, 3, 5, and then ... writer 6, then 3 for its output"
fn form_written(n: usize, m: usize, lits: &[u16], offs: &[u32], stack: &[u32], count: usize, out: &mut [u8]) -> Values {
    let (book, entries) = checked(n, m, lits, offs, stack, count)?;
    let form = saved::form(&book, &entries);
    // "the writer needs the form's exact length"
    if out.len() < form.len() {
        return refuse(3, 0, "a short output");
    }
    out[..form.len()].copy_from_slice(&form);
    Ok([form.len(), 0, 0])
}

/// "readers test 3 first, ... then the first fault by offset"; "and the latter 8,000 stack words"
fn form_read(bytes: &[u8], lits: &mut [u16], offs: &mut [u32], stack: &mut [u32]) -> Values {
    table_room(lits, offs)?;
    if stack.len() < ROOM_STACK {
        return refuse(3, 0, "a short stack");
    }
    let (book, entries) = saved::read(bytes)?;
    lay_book(&book, lits, offs);
    for (count, entry) in entries.iter().enumerate() {
        lay_entry(*entry, stack, count);
    }
    Ok([book.variables, book.clauses.len(), entries.len()])
}
