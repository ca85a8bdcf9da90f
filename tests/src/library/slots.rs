//! Numbers that are lent to a call, each between guards.
#[cfg(feature = "c17")]
use crate::calls::{Cell, Extremes};
use std::fmt::Debug;

/// A value that no call stores by itself.
pub trait Kept: Copy + PartialEq + Debug {
    const KEPT: Self;
}

impl Kept for i64 {
    const KEPT: i64 = 0x7EAD_BEEF_DEAD_BEEF;
}

impl Kept for u32 {
    const KEPT: u32 = 0xDEAD_BEEF;
}

impl Kept for i32 {
    const KEPT: i32 = 0x5EAD_BEEF;
}

const GUARD: [u64; 4] = [0x9E37_79B9_7F4A_7C15; 4];

#[repr(C)]
pub struct Slot<T> {
    before: [u64; 4],
    pub number: T,
    behind: [u64; 4],
}

impl<T: Kept> Slot<T> {
    pub fn new() -> Slot<T> {
        Slot { before: GUARD, number: T::KEPT, behind: GUARD }
    }

    /// What is there; the guards are whole.
    fn stored(self) -> T {
        assert_eq!((self.before, self.behind), (GUARD, GUARD), "a call changed what it must leave alone");
        self.number
    }

    /// What was stored if a cell was found. If none was, nothing was stored.
    pub fn told(self, found: bool) -> Option<T> {
        let number = self.stored();
        assert!(found || number == T::KEPT, "a call stored {number:?} without a cell");
        found.then_some(number)
    }
}

/// The numbers of a cell with extremes.
#[cfg(feature = "c17")]
pub struct CellSlots {
    pub sum: Slot<i64>,
    pub count: Slot<u32>,
    pub known: Slot<u32>,
    pub least: Slot<i32>,
    pub greatest: Slot<i32>,
}

#[cfg(feature = "c17")]
impl CellSlots {
    pub fn new() -> CellSlots {
        CellSlots { sum: Slot::new(), count: Slot::new(), known: Slot::new(), least: Slot::new(), greatest: Slot::new() }
    }

    /// The cell if one was found. Its extremes are 1 and both, or three zeros.
    pub fn told(self, found: bool) -> Option<Cell> {
        let (sum, count) = (self.sum.told(found), self.count.told(found));
        let (known, least, greatest) = (self.known.told(found), self.least.told(found), self.greatest.told(found));
        let (sum, count, known, least, greatest) = (sum?, count?, known?, least?, greatest?);
        assert!(known == 1 || (known, least, greatest) == (0, 0, 0), "extremes {known}, {least}, {greatest}");
        Some(Cell { sum, count, extremes: (known == 1).then_some(Extremes { least, greatest }) })
    }
}
