//! The reader of DIMACS CNF text. It goes through the clauses twice, first to find a fault, then to fill the lent buffers.
use super::rules::contains;
use super::Refusal;

/// Whether the byte stands between tokens: in the problem line only a blank does.
fn is_gap(b: u8, line: bool) -> bool {
    match b {
        b' ' | b'\t' => true,
        b'\r' | b'\n' => !line,
        _ => false,
    }
}

/// The place and the end of the next token from `from` on.
fn next_token(s: &[u8], from: usize, line: bool) -> Option<(usize, usize)> {
    let place = from + s[from..].iter().position(|&b| !is_gap(b, line))?;
    let end = s[place..].iter().position(|&b| is_gap(b, line)).map_or(s.len(), |len| place + len);
    Some((place, end))
}

/// Digits that don't begin with 0; a number above a million counts as a million, which is above every limit.
fn natural(digits: &[u8]) -> Option<usize> {
    if digits.is_empty() || digits[0] == b'0' {
        return None;
    }
    digits.iter().try_fold(0, |v, &b| match b {
        b'0'..=b'9' => Some((v * 10 + (b - b'0') as usize).min(1_000_000)),
        _ => None,
    })
}

enum Number {
    Plain(usize),
    Negative(usize),
}

/// What a token says as a number.
fn number_of(token: &[u8]) -> Option<Number> {
    match token {
        [b'-', digits @ ..] => natural(digits).map(Number::Negative),
        [b'0'] => Some(Number::Plain(0)),
        digits => natural(digits).map(Number::Plain),
    }
}

/// Whether a line ends at i.
fn ends_at(text: &[u8], i: usize) -> bool {
    match text[i] {
        b'\n' => true,
        b'\r' => text.get(i + 1) == Some(&b'\n'),
        _ => false,
    }
}

/// Whether a right comment begins at i.
fn comment_at(text: &[u8], i: usize) -> bool {
    text[i] == b'c' && (i + 1 == text.len() || ends_at(text, i + 1) || is_gap(text[i + 1], true))
}

/// The first line that is no right comment, or the end of the text.
fn first_line(text: &[u8]) -> usize {
    let mut i = 0;
    while i < text.len() && comment_at(text, i) {
        i = text[i..].iter().position(|&b| b == b'\n').map_or(text.len(), |len| i + len + 1);
    }
    i
}

/// The token of the problem line from `from` on is to be the keyword; answers where it ends.
fn keyword_at(line: &[u8], from: usize, keyword: &[u8]) -> Result<usize, Refusal> {
    let (place, end) = next_token(line, from, true).ok_or(Refusal::BadText(line.len()))?;
    if &line[place..end] == keyword {
        Ok(end)
    } else {
        Err(Refusal::BadText(place))
    }
}

/// The token of the problem line from `from` on is to be a count up to the limit; answers it and where it ends.
fn count_at(line: &[u8], from: usize, limit: usize) -> Result<(usize, usize), Refusal> {
    let (place, end) = next_token(line, from, true).ok_or(Refusal::BadText(line.len()))?;
    match number_of(&line[place..end]) {
        Some(Number::Plain(count)) if count <= limit => Ok((count, end)),
        Some(Number::Plain(_)) => Err(Refusal::OverLimit(place)),
        _ => Err(Refusal::BadText(place)),
    }
}

/// The counts of the problem line, which begins at `start`.
fn read_problem(line: &[u8], start: usize) -> Result<(usize, usize), Refusal> {
    if line.get(start) != Some(&b'p') {
        return Err(Refusal::BadText(start));
    }
    let end = keyword_at(line, start, b"p")?;
    let end = keyword_at(line, end, b"cnf")?;
    let (n, end) = count_at(line, end, 2000)?;
    let (m, end) = count_at(line, end, 4000)?;
    match next_token(line, end, true) {
        None => Ok((n, m)),
        Some((place, _)) => Err(Refusal::BadText(place)),
    }
}

/// Reads one clause into the front of `kept`: how many literals it has, and where its 0 ends.
fn read_clause(text: &[u8], from: usize, n: usize, room: usize, kept: &mut [u16]) -> Result<(usize, usize), Refusal> {
    let mut at = from;
    let mut count = 0;
    loop {
        let (place, end) = next_token(text, at, false).ok_or(Refusal::BadText(text.len()))?;
        let code = match number_of(&text[place..end]) {
            Some(Number::Plain(0)) => return Ok((count, end)),
            Some(Number::Plain(v)) if v <= n => 2 * v as u16,
            Some(Number::Negative(v)) if v <= n => 2 * v as u16 + 1,
            _ => return Err(Refusal::BadText(place)),
        };
        if !contains(&kept[..count], code) {
            if count == room {
                return Err(Refusal::OverLimit(place));
            }
            kept[count] = code;
            count += 1;
        }
        at = end;
    }
}

/// The first pass: reads all clauses and keeps none.
fn check_clauses(text: &[u8], from: usize, n: usize, m: usize) -> Result<(), Refusal> {
    let mut kept = [0; 1000];
    let mut at = from;
    let mut total = 0;
    for _ in 0..m {
        let (count, end) = read_clause(text, at, n, (16000 - total).min(1000), &mut kept)?;
        total += count;
        at = end;
    }
    match next_token(text, at, false) {
        None => Ok(()),
        Some((place, _)) => Err(Refusal::BadText(place)),
    }
}

/// The second pass: reads the clauses of a good text into the table.
fn fill_clauses(text: &[u8], from: usize, n: usize, m: usize, lits: &mut [u16], offs: &mut [u32]) -> Result<(), Refusal> {
    let mut at = from;
    let mut total = 0;
    offs[0] = 0;
    for off in &mut offs[1..=m] {
        let (count, end) = read_clause(text, at, n, (16000 - total).min(1000), &mut lits[total..])?;
        total += count;
        at = end;
        *off = total as u32;
    }
    Ok(())
}

/// Reads the text into the fronts of the lent buffers, and answers the counts of variables and clauses.
pub fn read_text(text: &[u8], lits: &mut [u16], offs: &mut [u32]) -> Result<(usize, usize), Refusal> {
    if lits.len() < 16000 || offs.len() < 4001 {
        return Err(Refusal::NoRoom);
    }
    if text.len() > 65536 {
        return Err(Refusal::OverLimit(0));
    }
    let start = first_line(text);
    let end = (start..text.len()).find(|&i| ends_at(text, i)).unwrap_or(text.len());
    let (n, m) = read_problem(&text[..end], start)?;
    check_clauses(text, end, n, m)?;
    fill_clauses(text, end, n, m, lits, offs)?;
    Ok((n, m))
}
