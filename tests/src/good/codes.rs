//! Codes of rows and cells, and sets of dimensions.

/// Codes by dimension. A cell has ALL, whose bits are all ones, where its set lacks a dimension.
pub type Codes = [u16; 8];

/// The set numbers in lattice order.
const LATTICE: [u8; 256] = {
    let mut sets = [0; 256];
    let (mut dims, mut at) = (0, 0);
    while dims <= 8 {
        let mut set = 0u32;
        while set < 256 {
            if set.count_ones() == dims {
                sets[at] = set as u8;
                at += 1;
            }
            set += 1;
        }
        dims += 1;
    }
    sets
};

/// The sets of so many dimensions, in lattice order.
pub fn lattice(dims: usize) -> impl Iterator<Item = usize> {
    LATTICE.iter().map(|&set| set as usize).filter(move |set| set >> dims == 0)
}

/// ALL in each dimension that the set lacks.
pub fn missing(set: usize) -> Codes {
    std::array::from_fn(|dim| if set >> dim & 1 == 1 { 0 } else { u16::MAX })
}

/// The cell in which a row falls, from what its set lacks.
pub fn cell(row: &Codes, missing: &Codes) -> Codes {
    std::array::from_fn(|dim| row[dim] | missing[dim])
}
