//! Literals and clauses: the tests on single clauses.

/// Below this length a plain walk through a clause is quicker than the search of std, which is made for long slices.
const SHORT: usize = 32;

/// The negation of a literal.
pub fn negated(l: u16) -> u16 {
    l ^ 1
}

/// Whether a short clause holds the literal.
fn contains_short(c: &[u16], l: u16) -> bool {
    c.iter().any(|&x| x == l)
}

/// Whether a clause holds the literal.
pub fn contains(c: &[u16], l: u16) -> bool {
    if c.len() < SHORT {
        contains_short(c, l)
    } else {
        c.contains(&l)
    }
}

/// Whether some literal of c has its negation, z apart, in d.
fn clashes(c: &[u16], d: &[u16], z: u16, contains: impl Fn(&[u16], u16) -> bool) -> bool {
    c.iter().map(|&x| negated(x)).any(|y| y != z && contains(d, y))
}

/// Whether d without z is a tautology.
fn clashes_within(d: &[u16], z: u16, contains: impl Fn(&[u16], u16) -> bool) -> bool {
    d.iter().filter(|&&x| x != z).map(|&x| negated(x)).any(|y| y != z && contains(d, y))
}

/// Whether the clause holds some variable and its negation.
fn is_tautology(c: &[u16], contains: impl Fn(&[u16], u16) -> bool) -> bool {
    c.iter().any(|&x| contains(c, negated(x)))
}

fn hinders_by(c: &[u16], l: u16, d: &[u16], contains: impl Fn(&[u16], u16) -> bool + Copy) -> bool {
    let z = negated(l);
    contains(d, z) && !clashes(c, d, z, contains) && !clashes_within(d, z, contains) && !is_tautology(c, contains)
}

/// Whether d keeps the literal l from blocking c (document 002, Definition 2).
pub fn hinders(c: &[u16], l: u16, d: &[u16]) -> bool {
    if c.len() < SHORT && d.len() < SHORT {
        hinders_by(c, l, d, contains_short)
    } else {
        hinders_by(c, l, d, contains)
    }
}

/// The same where neither clause is a tautology: then only a literal of c and one of d can clash.
pub fn hinders_plain(c: &[u16], l: u16, d: &[u16]) -> bool {
    let z = negated(l);
    if c.len() < SHORT && d.len() < SHORT {
        contains_short(d, z) && !clashes(c, d, z, contains_short)
    } else {
        contains(d, z) && !clashes(c, d, z, contains)
    }
}
