//! More commits behind the end of a log, as any writer might leave them.
//!
//! Assumes that the record is of the image, so that its end is inside.

use super::entries::Writer;
use super::Log;
use crate::calls::{Geometry, Mdir};
use crate::model::*;
use crate::random::Random;

/// From this count on a commit is often one of splices, which take it past 1,023 or
/// back.
const CROWD: u16 = 1000;

/// The image with more behind the record's end. What the record knows stays; the rest
/// is erased first, to either byte.
pub fn behind(random: &mut Random, geometry: Geometry, image: &[u8], dir: &Mdir) -> Vec<u8> {
    let (mut bytes, known) = (image.to_vec(), known_to(dir));
    let erased = [0xff, 0xff, 0xff, 0x00][random.below(4)];
    bytes[known..].fill(erased);
    let mut log = Log::behind(bytes, erased, dir.off as usize, dir.etag);
    if !adopt(random, &mut log, known) {
        return log.bytes;
    }
    let (prog, spliced) = (geometry.prog_size as usize, random.below(8));
    if spliced == 0 || (spliced < 5 && dir.count > CROWD) {
        splices(random, &mut log, prog);
    }
    let odd = [0, 0, 8, 30][random.below(4)];
    let most = [1, 2, 2, 4, 20][random.below(5)];
    let commits = 1 + random.below(most);
    let mut writer = Writer::new(random, log, prog, odd);
    writer.count = dir.count.into();
    writer.fill(commits);
    writer.log.bytes
}

/// Behind a check of size below 4 the checksum's own bytes are the start of the next
/// tag: the rest of that tag is drawn until it is one that the log can go on from.
fn adopt(random: &mut Random, log: &mut Log, known: usize) -> bool {
    let (at, tries) = (log.at(), 16);
    if at == known {
        return true;
    }
    (0..tries).any(|_| {
        let free = log.bytes.get_mut(known..at + 4).unwrap_or_default();
        free.fill_with(|| random.word() as u8);
        log.adopt()
    })
}

/// A commit of a few splices alone.
fn splices(random: &mut Random, log: &mut Log, prog: usize) {
    let types = [CREATE, CREATE, DELETE, DELETE, 0x47f, 0x480];
    let type_ = types[random.below(types.len())];
    for _ in 0..1 + random.below(4) {
        log.put(tag_of(type_, random.below(1023) as u32, 0), &[]);
    }
    let tag = tag_of(log.check_type(), NO_SLOT, log.check_size(0, prog));
    if length_of(tag) <= log.room() {
        log.check(tag);
    }
}
