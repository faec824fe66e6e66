//! Good order of an exception table, said plainly. This statement is ours and not the crate's: the Rust keeps its tables
//! and never checks one. That its tables meet it is seen after each operation of tables.rs.

pub fn slot(word: u32) -> u32 {
    word & 0x3ff_ffff
}

pub fn used(words: &[u32]) -> usize {
    words.iter().filter(|word| **word != 0).count()
}

/// The least doubling of the base that so many words fill to three quarters at most; none for no words.
pub fn size(base: usize, count: usize) -> usize {
    if count == 0 {
        return 0;
    }
    std::iter::successors(Some(base), |size| Some(2 * size))
        .find(|size| 4 * count <= 3 * size)
        .unwrap()
}

/// The places that a search for the slot visits, in order; by an odd step it visits all.
fn path(size: usize, slot: u32) -> impl Iterator<Item = usize> {
    let (home, step) = (slot as usize % size, (slot as usize / size) | 1);
    (0..size).map(move |n| (home + n * step) % size)
}

/// Whether so many words are at the area's front, each where the search for its slot ends, and nothing behind them.
pub fn good(area: &[u32], base: usize, count: usize) -> bool {
    if count >= 1 << 26 || size(base, count) > area.len() {
        return false;
    }
    let (table, behind) = area.split_at(size(base, count));
    let ends = |wanted: u32| {
        path(table.len(), wanted).find(|at| table[*at] == 0 || slot(table[*at]) == wanted)
    };
    used(table) == count
        && used(behind) == 0
        && (0..table.len()).all(|at| table[at] == 0 || ends(slot(table[at])) == Some(at))
}
