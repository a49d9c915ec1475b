//! A table as it lies in lent memory, and the soundness test.

/// The counts and the two lent buffers.
#[derive(Clone, Copy)]
pub struct Table<'a> {
    pub n: usize,
    pub m: usize,
    pub lits: &'a [u16],
    pub offs: &'a [u32],
}

impl<'a> Table<'a> {
    /// Where clause k starts and ends.
    pub fn bounds(&self, k: usize) -> (usize, usize) {
        (self.offs[k - 1] as usize, self.offs[k] as usize)
    }

    /// The literals of clause k.
    pub fn row(&self, k: usize) -> &'a [u16] {
        let (start, end) = self.bounds(k);
        &self.lits[start..end]
    }

    /// Whether the table is sound.
    pub fn is_sound(&self) -> bool {
        self.ends_sound() && self.offsets_rise() && self.clauses_sound()
    }

    fn ends_sound(&self) -> bool {
        if self.n > 2000 || self.m > 4000 || self.offs.len() <= self.m || self.offs[0] != 0 {
            return false;
        }
        let end = self.offs[self.m] as usize;
        end <= 16000 && end <= self.lits.len()
    }

    fn offsets_rise(&self) -> bool {
        self.offs[..=self.m].windows(2).all(|pair| pair[0] <= pair[1])
    }

    fn clauses_sound(&self) -> bool {
        let mut seen = [0u16; 4002];
        (1..=self.m).all(|k| clause_sound(self.n, self.row(k), k as u16, &mut seen))
    }
}

/// Whether the clause is sound. A code met in it is stamped k: a literal whose stamp is k stands twice.
fn clause_sound(n: usize, c: &[u16], k: u16, seen: &mut [u16; 4002]) -> bool {
    if c.len() > 1000 {
        return false;
    }
    for &x in c {
        let at = x as usize;
        if at < 2 || at > 2 * n + 1 || seen[at] == k {
            return false;
        }
        seen[at] = k;
    }
    true
}

/// Whether the lent table is sound.
pub fn is_sound(n: usize, m: usize, lits: &[u16], offs: &[u32]) -> bool {
    Table { n, m, lits, offs }.is_sound()
}
