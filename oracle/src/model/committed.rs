//! The committed log of a block, entry by entry, and whether it is regular.
//!
//! Assumes that the end is a fetched record's: else what is met is answered all
//! the same, and means nothing.

use super::rules::Rules;
use super::{bytes::*, tag::*, WriteFault, FAULTLESS};
use crate::calls::{Fetch, Voice};

/// An entry or a check: its tag, and the bytes behind it.
pub struct Logged<'a> {
    pub tag: u32,
    pub data: &'a [u8],
}

/// The log from the first tag to the end.
pub fn log_of(block: &[u8], end: usize) -> Vec<Logged<'_>> {
    let (mut log, mut at, mut previous) = (Vec::new(), 4, ONES);
    while at < end {
        let Some(raw) = be32(block, at) else {
            break;
        };
        let tag = (raw ^ previous) & !INVALID;
        let next = at + length_of(tag);
        let data = block.get(at + 4..next).unwrap_or_default();
        log.push(Logged { tag, data });
        previous = tag;
        if type2_of(tag) == CHECK && chunk_of(tag) & 1 == 1 {
            previous ^= INVALID;
        }
        at = next;
    }
    log
}

/// The log that fetch's record is of; without a record, none.
pub fn fetched_log<'a>(fetch: &Fetch<'a>) -> Vec<Logged<'a>> {
    let dir = FAULTLESS.fetch(fetch).dir;
    let which = usize::from(dir.pair[0] == fetch.blocks.numbers[1]);
    log_of(fetch.blocks.images[which], dir.off as usize)
}

/// "A log is regular if every check tag's size is 4 to 1,022 and its committed
/// entries pass these rules from c = 0, superblock names (as names) and forward
/// checks (id 1,023, length 8) allowed." Which rules, the call says.
pub fn regular(fault: WriteFault, which: u32, log: &[Logged]) -> bool {
    let mut rules = Rules::of_log(fault, which);
    log.iter().all(|logged| {
        let size = size_of(logged.tag);
        match type2_of(logged.tag) {
            CHECK => rules.check() && check_is_regular(fault, logged.tag, size),
            _ => rules.pass(type_of(logged.tag), id_of(logged.tag), size),
        }
    })
}

fn check_is_regular(fault: WriteFault, tag: u32, size: u32) -> bool {
    match fault {
        WriteFault::CheckOfAnySize => true,
        WriteFault::CheckNeedsNoSlot => (4..=1022).contains(&size) && id_of(tag) == NO_SLOT,
        WriteFault::CheckIs500 => (4..=1022).contains(&size) && type_of(tag) == CHECK,
        _ => (4..=1022).contains(&size),
    }
}
