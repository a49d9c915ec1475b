//! Texts, good and damaged.

use super::inputs::{draft, Draft, SMALL_SHAPES};
use super::{known, places, Compare, Table};
use crate::random::Random;
use crate::second::table::fault;
use crate::second::Literal;

/// Texts that are damaged in every place.
fn bases() -> Vec<Vec<u8>> {
    vec![
        known::K1.to_vec(),
        b"c\nc two rules\np cnf 3 2\n1 -2 3 0\n-3 0\n".to_vec(),
        b"c\r\nc\tx\r\np  cnf\t2 \t2\t \r\n1 2 0\r\n\r-1\t-2 0\r".to_vec(),
        b"p cnf 1 0".to_vec(),
        b"p cnf 0 1 \n\n0".to_vec(),
        b"p cnf 12 3\n10 -11 12 10 0 0\n-1 1\n-1 1 0\n \t".to_vec(),
        b"p cnf 2000 1\n2000 -2000 0\n".to_vec(),
        b"c only a comment".to_vec(),
        b"".to_vec(),
    ]
}

/// Every base at every place: one case is one place.
pub fn places() -> usize {
    places::count(&bases())
}

/// At one place of one base: the text cut there, each byte put in, each byte in place of the one that stands there, and the byte left out.
pub fn at_each_place(compare: &mut Compare, case: usize) {
    let (base, case) = places::find(bases(), case);
    places::edit(&base, case, |text| {
        compare.read_text(text);
    });
    if case < base.len() {
        let mut text = base.clone();
        text.remove(case);
        compare.read_text(&text);
        // Two bytes put in or in place of one, of those that mean something.
        for one in MEANING {
            for other in MEANING {
                let mut text = base.clone();
                text.splice(case..case + (one & 1) as usize, [*one, *other].iter().copied());
                compare.read_text(&text);
            }
        }
    }
}

/// The bytes that mean something to the reader.
const MEANING: &[u8] = b"cp-+019 \t\r\n";

/// Tokens that are put in the place of others.
const TOKENS: [&[u8]; 31] = [
    b"0",
    b"1",
    b"-1",
    b"2",
    b"-0",
    b"+1",
    b"00",
    b"01",
    b"-01",
    b"-",
    b"--1",
    b"1-",
    b"c",
    b"c 1",
    b"p",
    b"cnf",
    b"2000",
    b"2001",
    b"-2000",
    b"-2001",
    b"4000",
    b"4001",
    b"4294967296",
    b"4294967297",
    b"18446744073709551616",
    b"18446744073709551617",
    b"-18446744073709551617",
    b"65537",
    b"99999999999999999999999999999999999999999999",
    b"1.0",
    b"\xff",
];

/// The tokens of a text and what stands before each; the last piece is what stands behind the last token.
fn pieces(text: &[u8]) -> Vec<(Vec<u8>, Vec<u8>)> {
    let mut pieces = Vec::new();
    let mut at = 0;
    while at < text.len() {
        let from = (at..text.len()).find(|&at| !b" \t\r\n".contains(&text[at])).unwrap_or(text.len());
        let to = (from..text.len()).find(|&at| b" \t\r\n".contains(&text[at])).unwrap_or(text.len());
        pieces.push((text[at..from].to_vec(), text[from..to].to_vec()));
        at = to;
    }
    pieces
}

fn joined(pieces: &[(Vec<u8>, Vec<u8>)]) -> Vec<u8> {
    pieces
        .iter()
        .flat_map(|(before, token)| before.iter().chain(token).copied())
        .collect()
}

/// How many bases are damaged token by token.
pub fn token_cases() -> usize {
    bases().len()
}

/// Each token of one base dropped, doubled, exchanged with each later one, and changed to each of the tokens above.
pub fn at_each_token(compare: &mut Compare, case: usize) {
    let base = bases().swap_remove(case);
    let pieces = pieces(&base);
    for at in 0..pieces.len() {
        let mut dropped = pieces.clone();
        dropped.remove(at);
        compare.read_text(&joined(&dropped));
        let mut emptied = pieces.clone();
        emptied[at].1.clear();
        compare.read_text(&joined(&emptied));
        let mut doubled = pieces.clone();
        doubled.insert(at, (b" ".to_vec(), pieces[at].1.clone()));
        compare.read_text(&joined(&doubled));
        let mut closed = pieces.clone();
        closed[at].0.clear();
        compare.read_text(&joined(&closed));
        for other in at + 1..pieces.len() {
            let mut swapped = pieces.clone();
            let token = swapped[at].1.clone();
            swapped[at].1 = swapped[other].1.clone();
            swapped[other].1 = token;
            compare.read_text(&joined(&swapped));
        }
        for token in TOKENS {
            let mut changed = pieces.clone();
            changed[at].1 = token.to_vec();
            compare.read_text(&joined(&changed));
            let mut inserted = pieces.clone();
            inserted.insert(at, (b"\n".to_vec(), token.to_vec()));
            compare.read_text(&joined(&inserted));
            inserted[at].0 = b" ".to_vec();
            compare.read_text(&joined(&inserted));
        }
    }
}

/// One edit of a text.
fn edit(random: &mut Random, text: &mut Vec<u8>) {
    let at = random.below(text.len() + 1);
    match random.below(9) {
        0 => text.truncate(at),
        1 => text.insert(at, *random.pick(MEANING)),
        2 => text.insert(at, random.below(256) as u8),
        3 if at < text.len() => text[at] = *random.pick(MEANING),
        4 if at < text.len() => {
            text.remove(at);
        }
        5 => {
            let mut parts = pieces(text);
            if !parts.is_empty() {
                let at = random.below(parts.len());
                parts[at].1 = random.pick(&TOKENS).to_vec();
                *text = joined(&parts);
            }
        }
        6 => {
            let mut parts = pieces(text);
            if !parts.is_empty() {
                let part = random.pick(&parts).clone();
                let at = random.below(parts.len() + 1);
                parts.insert(at, part);
                *text = joined(&parts);
            }
        }
        7 => {
            let mut parts = pieces(text);
            if !parts.is_empty() {
                parts.remove(random.below(parts.len()));
                *text = joined(&parts);
            }
        }
        _ => {
            // Among the first lines, where the rules are narrow.
            let at = random.below(text.len().min(24) + 1);
            text.insert(at, *random.pick(MEANING));
        }
    }
}

/// A random text with no, one or some edits. The shrink group takes its texts from here too.
pub fn random_text(random: &mut Random) -> Vec<u8> {
    let shape = random.below(SMALL_SHAPES);
    let mut text = draft(random, shape).loose_text(random);
    let edits = *random.pick(&[0, 1, 1, 1, 2, 3]);
    for _ in 0..edits {
        edit(random, &mut text);
    }
    text
}

/// Random texts; one of 16 is a run of tokens and meaningful bytes alone.
pub fn run(compare: &mut Compare, case: usize) {
    let text = if case % 16 == 15 {
        let random = &mut compare.random;
        let mut text: Vec<u8> = random.pick(&[&b""[..], b"p cnf ", b"p cnf 3 2\n", b"c\n", b"p "]).to_vec();
        for _ in 0..random.below(12) {
            if random.chance(1, 2) {
                text.extend_from_slice(TOKENS[random.below(TOKENS.len())]);
            } else {
                text.push(*random.pick(MEANING));
            }
        }
        text
    } else {
        random_text(&mut compare.random)
    };
    let left = compare.read_text(&text);
    if case % 64 == 0 {
        let (lits_len, offs_len) = *compare.random.pick(&[(15_999, 4_001), (16_000, 4_000), (0, 0), (20_000, 5_000)]);
        compare.read_text_into(&text, lits_len, offs_len);
    }
    if left.done() {
        let table = Table {
            n: left.said.cells[1],
            m: left.said.cells[2],
            lits: left.lits,
            offs: left.offs,
        };
        compare.demand(
            fault(table.n, table.m, &table.lits, &table.offs).is_none(),
            "a table that was read is sound",
        );
        compare.eliminate(&table, 2 * table.m);
    }
}

/// Texts at the limits: a name, so that a case can be found, and the text.
fn limit_texts() -> Vec<(&'static str, Vec<u8>)> {
    let mut texts: Vec<(&'static str, Vec<u8>)> = Vec::new();
    let with_end = |front: &[u8], len: usize, fill: u8| -> Vec<u8> {
        let mut text = front.to_vec();
        text.resize(len, fill);
        text
    };
    for len in [65_535, 65_536, 65_537, 65_538, 100_000] {
        for fill in [b' ', b'\n', b'\r', b'x', b'0', 0] {
            texts.push(("behind the last clause", with_end(b"p cnf 1 1\n1 0", len, fill)));
            texts.push(("behind C", with_end(b"p cnf 1 0", len, fill)));
            texts.push(("in a comment", with_end(b"c ", len, fill)));
        }
        let mut comment = with_end(b"c ", len - 13, b'x');
        comment.extend_from_slice(b"\np cnf 1 1\n1 0");
        comment.remove(2);
        texts.push(("a long comment", comment));
    }
    for number in [
        "1999",
        "2000",
        "2001",
        "2002",
        "20000",
        "65536",
        "4294967296",
        "18446744073709551616",
        "02000",
        "-2000",
    ] {
        texts.push(("V", format!("p cnf {} 1\n1 0\n", number).into_bytes()));
        texts.push(("V before a fault", format!("p cnf {} x\n1 0\n", number).into_bytes()));
        texts.push(("a literal", format!("p cnf 2000 1\n{} 0\n", number).into_bytes()));
        texts.push(("a negation", format!("p cnf 2000 1\n-{} 0\n", number).into_bytes()));
    }
    let long_number = "1".repeat(60_000);
    texts.push(("a V of many digits", format!("p cnf {} 1\n1 0\n", long_number).into_bytes()));
    texts.push(("a C of many digits", format!("p cnf 1 {}\n1 0\n", long_number).into_bytes()));
    texts.push((
        "a literal of many digits",
        format!("p cnf 2000 1\n{} 0\n", long_number).into_bytes(),
    ));
    texts.push(("a bad V of many digits", format!("p cnf {}x 1\n1 0\n", long_number).into_bytes()));
    for count in [3_999usize, 4_000, 4_001, 4_002] {
        for given in [3_999usize, 4_000, 4_001] {
            let mut text = format!("p cnf 1 {}\n", count);
            text.push_str(&"1 0\n".repeat(given));
            texts.push(("C", text.into_bytes()));
        }
        texts.push(("C before a fault", format!("p cnf 1 {} x\n", count).into_bytes()));
        texts.push(("C before a CR", format!("p cnf 1 {}\r", count).into_bytes()));
    }
    for len in [999, 1_000, 1_001, 1_002] {
        let straight: Vec<Literal> = (1..=len).collect();
        let paired: Vec<Literal> = (0..len)
            .map(|index| if index % 2 == 0 { index / 2 + 1 } else { -(index / 2 + 1) })
            .collect();
        for clause in [straight, paired] {
            texts.push((
                "a clause",
                Draft {
                    variables: 2_000,
                    clauses: vec![clause.clone()],
                }
                .plain_text(),
            ));
            texts.push((
                "a clause with a small V",
                Draft {
                    variables: 1_000,
                    clauses: vec![clause.clone()],
                }
                .plain_text(),
            ));
            texts.push((
                "a second clause",
                Draft {
                    variables: 2_000,
                    clauses: vec![vec![1], clause.clone()],
                }
                .plain_text(),
            ));
            // Repeated literals are not kept, so they do not count, before and behind the 1,000th.
            let mut repeated = vec![clause[0]; 500];
            repeated.extend(&clause);
            repeated.extend(&clause[..100]);
            texts.push((
                "a clause with repetitions",
                Draft {
                    variables: 2_000,
                    clauses: vec![repeated.clone(), vec![-1]],
                }
                .plain_text(),
            ));
            // At one token 1 comes before 2.
            let mut above = clause.clone();
            above.push(2_001);
            texts.push((
                "a clause and a variable above V",
                Draft {
                    variables: 2_000,
                    clauses: vec![above],
                }
                .plain_text(),
            ));
            let mut bad = Draft {
                variables: 2_000,
                clauses: vec![clause],
            }
            .plain_text();
            bad.truncate(bad.len() - 2);
            bad.extend_from_slice(b"-0 0\n");
            texts.push(("a clause and no number", bad));
        }
    }
    // 16 literals in a clause, 1,000 clauses.
    let sixteen: Vec<Literal> = (1..=8).flat_map(|variable| [variable, -variable]).collect();
    for last in 14..=18 {
        let mut clauses = vec![sixteen.clone(); 999];
        let end: Vec<Literal> = (1..=9).flat_map(|variable| [variable, -variable]).take(last).collect();
        clauses.push(end.clone());
        texts.push((
            "literals in all",
            Draft {
                variables: 9,
                clauses: clauses.clone(),
            }
            .plain_text(),
        ));
        let mut repeated = end;
        repeated.push(1);
        repeated.push(1);
        clauses[999] = repeated;
        texts.push((
            "literals in all with repetitions",
            Draft {
                variables: 9,
                clauses: clauses.clone(),
            }
            .plain_text(),
        ));
        clauses[999].push(10);
        texts.push((
            "literals in all and a variable above V",
            Draft {
                variables: 9,
                clauses: clauses.clone(),
            }
            .plain_text(),
        ));
        clauses[999].pop();
        clauses.push(vec![]);
        clauses.push(vec![1, 2]);
        texts.push(("literals in all, two clauses more", Draft { variables: 9, clauses }.plain_text()));
    }
    // The 1,001st literal of a clause that is the table's 16,001st too.
    let ten: Vec<Literal> = (1..=5).flat_map(|variable| [variable, -variable]).collect();
    let mut clauses = vec![ten; 1_500];
    clauses.push((1..=1_001).collect());
    texts.push(("both at once", Draft { variables: 2_000, clauses }.plain_text()));
    texts
}

thread_local! {
    static LIMIT_TEXTS: Vec<(&'static str, Vec<u8>)> = limit_texts();
}

pub fn limit_cases() -> usize {
    LIMIT_TEXTS.with(|texts| texts.len())
}

/// One of the texts at the limits.
pub fn limit_text(case: usize) -> Vec<u8> {
    LIMIT_TEXTS.with(|texts| texts[case].1.clone())
}

pub fn at_the_limits(compare: &mut Compare, case: usize) {
    let text = limit_text(case);
    compare.read_text(&text);
    compare.read_text_into(&text, 15_999, 4_001);
    compare.read_text_into(&text, 16_000, 4_000);
}
