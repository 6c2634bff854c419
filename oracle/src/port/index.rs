//! The port's calls of the index, and its compaction with a lent table.
//!
//! Slices pass as in `dir`, a table as a pointer and its number of words. The build
//! script sets `lanolin_index` where the archive has the three calls of the index, and
//! `lanolin_compact_with` where it has that one; without them nothing is declared, and
//! `CAN_INDEX` and `CAN_COMPACT_WITH` say that they cannot be asked.
//!
//! Assumes that the archive keeps to the shapes of `include/lanolin.h`.

#[cfg(any(lanolin_index, lanolin_compact_with))]
use super::dir::{start_of, start_of_mut};
use super::Port;
use crate::calls::index::{Index, Indexed, Indexes, Look};
use crate::calls::write::{Committed, Task};
use crate::calls::{Got, Mdir};

/// Whether the archive has the three calls of the index.
pub const CAN_INDEX: bool = cfg!(lanolin_index);
/// Whether it has the compaction with a lent table.
pub const CAN_COMPACT_WITH: bool = cfg!(lanolin_compact_with);

#[cfg(lanolin_index)]
extern "C" {
    fn lanolin_index(
        geometry: crate::calls::Geometry,
        b0: *const u8,
        b0_len: usize,
        b1: *const u8,
        b1_len: usize,
        n0: u32,
        n1: u32,
        dir: Mdir,
        rules: u32,
        table: *mut u32,
        table_len: usize,
    ) -> Indexed;
    fn lanolin_index_extend(
        geometry: crate::calls::Geometry,
        b0: *const u8,
        b0_len: usize,
        b1: *const u8,
        b1_len: usize,
        n0: u32,
        n1: u32,
        old: Mdir,
        dir: Mdir,
        rules: u32,
        table: *mut u32,
        table_len: usize,
    ) -> Indexed;
    fn lanolin_index_get(
        geometry: crate::calls::Geometry,
        b0: *const u8,
        b0_len: usize,
        b1: *const u8,
        b1_len: usize,
        n0: u32,
        n1: u32,
        dir: Mdir,
        table: *const u32,
        table_len: usize,
        type_: u32,
        id: u32,
        buffer: *mut u8,
        gsize: usize,
    ) -> Got;
}

#[cfg(lanolin_compact_with)]
extern "C" {
    fn lanolin_compact_with(
        geometry: crate::calls::Geometry,
        b0: *mut u8,
        b0_len: usize,
        b1: *mut u8,
        b1_len: usize,
        n0: u32,
        n1: u32,
        block_count: u32,
        seed: u32,
        rules: u32,
        erased: u8,
        table: *mut u32,
        table_len: usize,
    ) -> Committed;
}

#[cfg(any(lanolin_index, lanolin_compact_with))]
fn words_of_mut(table: &mut [u32]) -> *mut u32 {
    match table {
        [] => std::ptr::null_mut(),
        _ => table.as_mut_ptr(),
    }
}

impl Indexes for Port {
    #[cfg(lanolin_index)]
    fn index(&self, input: &Index, table: &mut [u32]) -> Indexed {
        let Index { blocks, dir, rules } = *input;
        let ([b0, b1], [n0, n1]) = (blocks.images, blocks.numbers);
        let (g, p0, p1) = (blocks.geometry, start_of(b0), start_of(b1));
        let (t, tl) = (words_of_mut(table), table.len());
        // SAFETY: images and table are valid for their lengths, and the table is lent
        // to this call alone; any number is answered.
        unsafe { lanolin_index(g, p0, b0.len(), p1, b1.len(), n0, n1, dir, rules, t, tl) }
    }

    #[cfg(lanolin_index)]
    fn extend(&self, input: &Index, old: &Mdir, table: &mut [u32]) -> Indexed {
        let Index { blocks, dir, rules } = *input;
        let ([b0, b1], [n0, n1]) = (blocks.images, blocks.numbers);
        let (g, p0, p1) = (blocks.geometry, start_of(b0), start_of(b1));
        let (l0, l1, old) = (b0.len(), b1.len(), *old);
        let (t, tl) = (words_of_mut(table), table.len());
        // SAFETY: as for `index`.
        unsafe { lanolin_index_extend(g, p0, l0, p1, l1, n0, n1, old, dir, rules, t, tl) }
    }

    #[cfg(lanolin_index)]
    fn look(&self, input: &Index, table: &[u32], look: Look, buffer: &mut [u8]) -> Got {
        let Index { blocks, dir, .. } = *input;
        let ([b0, b1], [n0, n1]) = (blocks.images, blocks.numbers);
        let (g, p0, p1) = (blocks.geometry, start_of(b0), start_of(b1));
        let (l0, l1) = (b0.len(), b1.len());
        let (t, tl) = match table {
            [] => (std::ptr::null(), 0),
            _ => (table.as_ptr(), table.len()),
        };
        let (b, bl) = (start_of_mut(buffer), buffer.len());
        let Look { type_, id } = look;
        // SAFETY: images, table and buffer are valid for their lengths, and the buffer
        // is lent to this call alone; any number is answered.
        unsafe { lanolin_index_get(g, p0, l0, p1, l1, n0, n1, dir, t, tl, type_, id, b, bl) }
    }

    #[cfg(not(lanolin_index))]
    fn index(&self, _input: &Index, _table: &mut [u32]) -> Indexed {
        unreachable!("the archive lacks the call: `CAN_INDEX` says so")
    }

    #[cfg(not(lanolin_index))]
    fn extend(&self, _input: &Index, _old: &Mdir, _table: &mut [u32]) -> Indexed {
        unreachable!("the archive lacks the call: `CAN_INDEX` says so")
    }

    #[cfg(not(lanolin_index))]
    fn look(&self, _input: &Index, _table: &[u32], _look: Look, _buffer: &mut [u8]) -> Got {
        unreachable!("the archive lacks the call: `CAN_INDEX` says so")
    }

    #[cfg(lanolin_compact_with)]
    fn compact_with(&self, task: &Task, [b0, b1]: [&mut [u8]; 2], table: &mut [u32]) -> Committed {
        let ([n0, n1], count, seed) = (task.numbers, task.block_count, task.seed);
        let (rules, erased) = (task.rules, task.erased);
        let (g, l0, l1) = (task.geometry, b0.len(), b1.len());
        let (p0, p1) = (start_of_mut(b0), start_of_mut(b1));
        let (t, tl) = (words_of_mut(table), table.len());
        // SAFETY: images and table are valid for their lengths, lent to this call
        // alone, and do not overlap.
        unsafe {
            lanolin_compact_with(g, p0, l0, p1, l1, n0, n1, count, seed, rules, erased, t, tl)
        }
    }

    #[cfg(not(lanolin_compact_with))]
    fn compact_with(&self, _: &Task, _: [&mut [u8]; 2], _: &mut [u32]) -> Committed {
        unreachable!("the archive lacks the call: `CAN_COMPACT_WITH` says so")
    }
}
