//! Whether an accepted call carried a forward check, and how much room there was for
//! it, and for which flash its checks were laid: by the log that the call left, whoever
//! wrote it.
//!
//! Assumes a log that is regular.

use crate::calls::{Geometry, Mdir};
use crate::model::*;

/// The forward check and the check: 12 and 8 bytes.
const LAST_ENTRIES: isize = 20;

pub struct Carried {
    /// The last commit has a forward check right before its check.
    pub carried: bool,
    /// The log's last one, as a record has it: a mark, the size, the checksum.
    pub last: (u8, u32, u32),
    /// It has checks for flash of both kinds.
    pub both: bool,
    /// How many bytes were left behind forward check, check and one program unit, or
    /// lacked.
    spare: isize,
    prog: isize,
}

impl Carried {
    /// Of the block that answers, with its record.
    pub fn of(geometry: Geometry, block: &[u8], dir: &Mdir) -> Carried {
        let log = log_of(block, dir.off as usize);
        let is_forward = |logged: &&Logged| type_of(logged.tag) == FORWARD;
        let carried = matches!(&log[..], [.., last, _] if is_forward(&last));
        let last = log.iter().rev().find(is_forward).map_or((0, 0, 0), |last| {
            let word = |at| le32(last.data, at).unwrap_or_default();
            (1, word(0), word(4))
        });
        let check = dir.off as isize - length_of(dir.etag & !INVALID) as isize;
        let entries = check - if carried { LAST_ENTRIES - 8 } else { 0 };
        let prog = geometry.prog_size as isize;
        Carried {
            carried,
            last,
            both: for_both(&log),
            spare: geometry.block_size as isize - prog - entries - LAST_ENTRIES,
            prog,
        }
    }

    /// For the counts: it is carried where nothing lacks.
    pub fn room(&self) -> &'static str {
        match self.spare {
            0 => "to the byte",
            -1 => "a byte too little",
            spare if spare > self.prog => "more than a unit more",
            spare if spare > 0 => "up to a unit more",
            spare if spare < -self.prog => "more than a unit too little",
            _ => "up to a unit too little",
        }
    }
}

fn for_both(log: &[Logged]) -> bool {
    let checks = log.iter().filter(|logged| type2_of(logged.tag) == CHECK);
    let mut bits = checks.map(|logged| chunk_of(logged.tag) & 1);
    let first = bits.next();
    bits.any(|bit| Some(bit) != first)
}
