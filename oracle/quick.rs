//! The two tests of a region that is a list, each by a binary search: for speed.
//!
//! The list is valid, ascending, and no cell is inside another, so the last leaves of its cells ascend too. Of all listed cells
//! only the first can pass whose last leaf is not before the cell that is asked about, or before its first leaf. The judge asks
//! every listed cell instead (oracle/lines.rs); the build `quick` has these tests, and oracle/compare holds its answers against
//! those of `unmodified`.

use crate::s2::cellid::CellID;

/// Whether some listed cell contains the cell.
pub fn contains(list: &[CellID], id: &CellID) -> bool {
    let at = list.partition_point(|own| own.range_max() < *id);
    list.get(at).is_some_and(|own| own.contains(id))
}

/// Whether some listed cell and the cell share a leaf.
pub fn intersects(list: &[CellID], id: &CellID) -> bool {
    let at = list.partition_point(|own| own.range_max() < id.range_min());
    list.get(at).is_some_and(|own| own.intersects(id))
}
