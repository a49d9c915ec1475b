//! Every place of some texts or forms: one case is one place of one of them.

/// How many places the bases have, their ends among them.
pub fn count(bases: &[Vec<u8>]) -> usize {
    bases.iter().map(|base| base.len() + 1).sum()
}

/// The base, and the place in it, that a case names.
pub fn find(bases: Vec<Vec<u8>>, mut case: usize) -> (Vec<u8>, usize) {
    for base in bases {
        if case <= base.len() {
            return (base, case);
        }
        case -= base.len() + 1;
    }
    panic!("a case behind the last place");
}

/// Both parts of the base cut at a place, each byte put in there, and each byte in place of the one that stands there.
pub fn edit(base: &[u8], place: usize, mut run: impl FnMut(&[u8])) {
    run(&base[..place]);
    run(&base[place..]);
    for byte in 0..=255 {
        let mut bytes = base.to_vec();
        bytes.insert(place, byte);
        run(&bytes);
        if place < base.len() && base[place] != byte {
            bytes = base.to_vec();
            bytes[place] = byte;
            run(&bytes);
        }
    }
}
