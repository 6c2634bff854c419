//! The port's four calls that write a pair of blocks.
//!
//! Slices pass as in `dir`. The build script sets `lanolin_commit` and
//! `lanolin_compact` where the archive has the two calls of that name; without
//! one, nothing is declared, and `can` says that they cannot be asked.
//!
//! Assumes that the archive keeps to the shapes of `include/lanolin.h`.

#[cfg(any(lanolin_commit, lanolin_compact))]
use super::dir::start_of_mut;
use super::Port;
use crate::calls::write::{Answer, Task, Work, Writes};

#[cfg(lanolin_commit)]
extern "C" {
    fn lanolin_commit(
        geometry: crate::calls::Geometry,
        b0: *mut u8,
        b0_len: usize,
        b1: *mut u8,
        b1_len: usize,
        n0: u32,
        n1: u32,
        block_count: u32,
        seed: u32,
        rules: u32,
        erased: u8,
        entries: *const crate::calls::write::Entry,
        entries_len: usize,
        data: *const u8,
        data_len: usize,
    ) -> crate::calls::write::Committed;
    fn lanolin_commit_stores(
        geometry: crate::calls::Geometry,
        b0: *mut u8,
        b0_len: usize,
        b1: *mut u8,
        b1_len: usize,
        n0: u32,
        n1: u32,
        block_count: u32,
        seed: u32,
        rules: u32,
        erased: u8,
        entries: *const crate::calls::write::Entry,
        entries_len: usize,
        data: *const u8,
        data_len: usize,
        stores: u32,
    ) -> crate::calls::write::Stored;
}

#[cfg(lanolin_compact)]
extern "C" {
    fn lanolin_compact(
        geometry: crate::calls::Geometry,
        b0: *mut u8,
        b0_len: usize,
        b1: *mut u8,
        b1_len: usize,
        n0: u32,
        n1: u32,
        block_count: u32,
        seed: u32,
        rules: u32,
        erased: u8,
    ) -> crate::calls::write::Committed;
    fn lanolin_compact_stores(
        geometry: crate::calls::Geometry,
        b0: *mut u8,
        b0_len: usize,
        b1: *mut u8,
        b1_len: usize,
        n0: u32,
        n1: u32,
        block_count: u32,
        seed: u32,
        rules: u32,
        erased: u8,
        stores: u32,
    ) -> crate::calls::write::Stored;
}

impl Writes for Port {
    fn can(&self, work: &Work) -> bool {
        match work {
            Work::Commit { .. } => cfg!(lanolin_commit),
            Work::Compact => cfg!(lanolin_compact),
        }
    }

    #[allow(unused_variables)]
    fn write(&self, task: &Task, images: [&mut [u8]; 2]) -> Answer {
        match task.work {
            #[cfg(lanolin_commit)]
            Work::Commit { entries, data } => commit(task, images, entries, data),
            #[cfg(lanolin_compact)]
            Work::Compact => compact(task, images),
            #[allow(unreachable_patterns)]
            _ => unreachable!("the archive lacks the call: `can` says so"),
        }
    }
}

#[cfg(lanolin_commit)]
fn commit(
    task: &Task,
    [b0, b1]: [&mut [u8]; 2],
    entries: &[crate::calls::write::Entry],
    data: &[u8],
) -> Answer {
    let ([n0, n1], count) = (task.numbers, task.block_count);
    let (seed, rules, erased) = (task.seed, task.rules, task.erased);
    let (g, l0, l1) = (task.geometry, b0.len(), b1.len());
    let (p0, p1) = (start_of_mut(b0), start_of_mut(b1));
    let e = match entries {
        [] => std::ptr::null(),
        _ => entries.as_ptr(),
    };
    let (el, d, dl) = (entries.len(), super::dir::start_of(data), data.len());
    // SAFETY: every slice is valid for its length; the images are lent to this
    // call alone, and do not overlap.
    unsafe {
        match task.stores {
            None => Answer::Committed(lanolin_commit(
                g, p0, l0, p1, l1, n0, n1, count, seed, rules, erased, e, el, d, dl,
            )),
            Some(n) => Answer::Stored(lanolin_commit_stores(
                g, p0, l0, p1, l1, n0, n1, count, seed, rules, erased, e, el, d, dl, n,
            )),
        }
    }
}

#[cfg(lanolin_compact)]
fn compact(task: &Task, [b0, b1]: [&mut [u8]; 2]) -> Answer {
    let ([n0, n1], count) = (task.numbers, task.block_count);
    let (seed, rules, erased) = (task.seed, task.rules, task.erased);
    let (g, l0, l1) = (task.geometry, b0.len(), b1.len());
    let (p0, p1) = (start_of_mut(b0), start_of_mut(b1));
    // SAFETY: as for `commit`.
    unsafe {
        match task.stores {
            None => Answer::Committed(lanolin_compact(
                g, p0, l0, p1, l1, n0, n1, count, seed, rules, erased,
            )),
            Some(n) => Answer::Stored(lanolin_compact_stores(
                g, p0, l0, p1, l1, n0, n1, count, seed, rules, erased, n,
            )),
        }
    }
}
