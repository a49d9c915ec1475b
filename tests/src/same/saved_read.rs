//! The reader of the saved form. Every field is tested first, and the places of the clauses are remembered; then the table is filled, the stack is
//! checked, and the lent buffers are written at the end.
use super::stack::all_blocking;
use super::table::Table;
use super::Refusal;
use std::ops::Range;

/// The number in the two bytes at i.
fn number_at(v: &[u8], i: usize) -> usize {
    u16::from_be_bytes([v[i], v[i + 1]]) as usize
}

/// The numbers of a stretch.
fn numbers(v: &[u8]) -> impl Iterator<Item = u16> + '_ {
    v.chunks_exact(2).map(|pair| u16::from_be_bytes([pair[0], pair[1]]))
}

/// The bounds of the value of the field at `at`, if the field is all there and has the tag.
fn value_at(bytes: &[u8], at: usize, tag: u8) -> Option<Range<usize>> {
    let start = at + 3;
    if bytes.len() < start {
        return None;
    }
    let end = start + number_at(bytes, at + 1);
    if bytes.len() < end || bytes[at] != tag {
        return None;
    }
    Some(start..end)
}

struct Header {
    n: usize,
    m: usize,
    total: usize,
    removals: usize,
}

fn read_header(bytes: &[u8]) -> Result<Header, Refusal> {
    let range = value_at(bytes, 0, 1).ok_or(Refusal::BadSaved(0))?;
    let v = &bytes[range];
    if v.len() != 8 {
        return Err(Refusal::BadSaved(0));
    }
    let header = Header {
        n: number_at(v, 0),
        m: number_at(v, 2),
        total: number_at(v, 4),
        removals: number_at(v, 6),
    };
    if header.n > 2000 || header.m > 4000 || header.total > 16000 {
        return Err(Refusal::OverLimit(0));
    }
    if header.removals > header.m {
        return Err(Refusal::BadSaved(0));
    }
    Ok(header)
}

/// Whether no number stands twice in the stretch.
fn all_once(v: &[u8]) -> bool {
    let mut rest = v;
    while rest.len() > 1 {
        let x = number_at(rest, 0) as u16;
        rest = &rest[2..];
        if numbers(rest).any(|y| y == x) {
            return false;
        }
    }
    true
}

/// The table that is being read, the stack's words, and the places of the literals by clause number (0 for a clause not met).
struct Scan {
    starts: [usize; 4001],
    ends: [usize; 4001],
    words: [u32; 8000],
}

impl Scan {
    /// Whether the value of a clause's field is sound, beside the clauses before it.
    fn sound_clause(&self, v: &[u8], heads: usize, header: &Header, prev: usize) -> bool {
        let k = number_at(v, 0);
        let lits = &v[2 * heads..];
        let limit = 2 * header.n + 1;
        (1..=header.m).contains(&k)
            && numbers(lits).all(|x| (2..=limit).contains(&(x as usize)))
            && all_once(lits)
            && (heads == 1 || numbers(lits).any(|x| x as usize == number_at(v, 2)))
            && if heads == 1 { prev < k } else { self.starts[k] == 0 }
    }

    /// Tests every clause's field and the end, and answers how many entries the stack has.
    fn read_lines(&mut self, bytes: &[u8], header: &Header) -> Result<usize, Refusal> {
        let (mut at, mut prev, mut total, mut count) = (11, 0, 0, 0);
        for left in (0..header.m).rev() {
            let heads = if left < header.removals { 2 } else { 1 };
            let range = value_at(bytes, at, heads as u8 + 1).ok_or(Refusal::BadSaved(at))?;
            let (start, end) = (range.start + 2 * heads, range.end);
            let v = &bytes[range];
            if v.len() % 2 != 0 || v.len() < 2 * heads {
                return Err(Refusal::BadSaved(at));
            }
            let more = v.len() / 2 - heads;
            if more > 1000 || total + more > 16000 {
                return Err(Refusal::OverLimit(at));
            }
            if !self.sound_clause(v, heads, header, prev) {
                return Err(Refusal::BadSaved(at));
            }
            let k = number_at(v, 0);
            if heads == 2 {
                self.words[2 * count] = k as u32;
                self.words[2 * count + 1] = number_at(v, 2) as u32;
                count += 1;
            }
            self.starts[k] = start;
            self.ends[k] = end;
            prev = k;
            total += more;
            at = end;
        }
        let range = value_at(bytes, at, 127).ok_or(Refusal::BadSaved(at))?;
        if !range.is_empty() || total != header.total {
            return Err(Refusal::BadSaved(at));
        }
        if range.end < bytes.len() {
            return Err(Refusal::BadSaved(range.end));
        }
        Ok(count)
    }

    /// Fills the rows from the places remembered, and answers how many literals there are.
    fn fill_rows(&self, bytes: &[u8], m: usize, rows: &mut [u16; 16000], ends: &mut [u32; 4001]) -> usize {
        let mut at = 0;
        for k in 1..=m {
            let v = &bytes[self.starts[k]..self.ends[k]];
            let len = v.len() / 2;
            for (cell, x) in rows[at..at + len].iter_mut().zip(numbers(v)) {
                *cell = x;
            }
            at += len;
            ends[k] = at as u32;
        }
        at
    }
}

/// Reads a saved form into the fronts of the lent buffers, and answers the counts of variables, clauses and entries.
pub fn read_saved(bytes: &[u8], lits: &mut [u16], offs: &mut [u32], stack: &mut [u32]) -> Result<(usize, usize, usize), Refusal> {
    if lits.len() < 16000 || offs.len() < 4001 || stack.len() < 8000 {
        return Err(Refusal::NoRoom);
    }
    let header = read_header(bytes)?;
    let (n, m) = (header.n, header.m);
    let mut scan = Scan {
        starts: [0; 4001],
        ends: [0; 4001],
        words: [0; 8000],
    };
    let count = scan.read_lines(bytes, &header)?;
    let mut rows = [0; 16000];
    let mut ends = [0; 4001];
    let total = scan.fill_rows(bytes, m, &mut rows, &mut ends);
    let table = Table {
        n,
        m,
        lits: &rows[..total],
        offs: &ends[..=m],
    };
    let mut live = [false; 4001];
    all_blocking(&table, &scan.words, count, &mut live)?;
    lits[..total].copy_from_slice(table.lits);
    offs[..=m].copy_from_slice(table.offs);
    stack[..2 * count].copy_from_slice(&scan.words[..2 * count]);
    Ok((n, m, count))
}
