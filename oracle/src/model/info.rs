//! `lfs_dir_getinfo` and `lfs_dir_getgstate`: lookups with fixed masks. Each
//! also says whether a found word had bit 31 set: there document 01 leaves the
//! Rust, which takes such a word for an error.
//!
//! Assumes nothing.

use super::{bytes::*, tag::*, Fault, Model};
use crate::calls::{Gstate, Info, Lookup, Query, INVAL, NOENT};

impl Model {
    pub fn info_and_say(&self, input: &Lookup, name_max: u32, id: u32) -> (Info, bool) {
        let names = match self.fault {
            Fault::LongestNameZero => 0..=255,
            Fault::LongestNameAbove => 1..=256,
            _ => 1..=255,
        };
        let slot = id <= NO_SLOT || self.has(Fault::Id1024);
        let root_first = id == NO_SLOT && self.has(Fault::RootBeforeSizes);
        if !root_first && (!self.record_fits(input) || !names.contains(&name_max) || !slot) {
            return (Info::refused(INVAL), false);
        }
        if id == NO_SLOT {
            return (self.root(), false);
        }
        self.slot(input, name_max, id)
    }

    /// "id 1,023 is the root, named "/""
    fn root(&self) -> Info {
        let mut info = Info::refused(0);
        info.type_ = match self.fault {
            Fault::RootIsAFile => FILE as u8,
            _ => DIRECTORY as u8,
        };
        info.name[0] = b'/';
        info
    }

    /// Masks 0x780 for the name and 0x700 for the struct, with all id bits.
    fn slot(&self, input: &Lookup, name_max: u32, id: u32) -> (Info, bool) {
        let mut info = Info::refused(0);
        let ours = match self.named(input, name_max, id, &mut info) {
            Ok(word) => word & INVALID != 0,
            Err(refusal) => return (Info::refused(refusal), false),
        };
        let mut ctz = [0; 8];
        let query = query_of(0x700, true, tag_of(STRUCT, id, 8));
        let got = self.slice(input, query, &mut ctz);
        let ours = ours || (got.result == 0 && got.tag & INVALID != 0);
        match got.result {
            0 => info.size = self.size(got.tag, &ctz),
            NOENT if self.has(Fault::StructMayLack) => {}
            refusal if self.has(Fault::RefusalHasName) => info.result = refusal,
            refusal => return (Info::refused(refusal), ours),
        }
        (info, ours)
    }

    fn named(&self, input: &Lookup, name_max: u32, id: u32, info: &mut Info) -> Result<u32, i32> {
        let types = match self.fault {
            Fault::NameMask700 => 0x700,
            _ => 0x780,
        };
        let length = match self.fault {
            Fault::NameCutByOne => name_max,
            _ => name_max + 1,
        } as usize;
        let query = query_of(types, true, tag_of(NAME, id, name_max + 1));
        // A fault asks for 257 bytes, which the info does not have.
        let length = length.min(info.name.len());
        let buffer = info.name.get_mut(..length).ok_or(INVAL)?;
        let got = self.slice(input, query, buffer);
        if got.result != 0 {
            return Err(got.result);
        }
        info.type_ = type_of(got.tag) as u8;
        Ok(got.tag)
    }

    /// "Ours: size is 0 unless the struct is inline or CTZ"
    fn size(&self, tag: u32, ctz: &[u8; 8]) -> u32 {
        let word = match self.fault {
            Fault::CtzSizeIsHead => 0,
            _ => 4,
        };
        match type_of(tag) {
            CTZ => le32(ctz, word).unwrap_or(0),
            INLINE => size_of(tag),
            _ if self.has(Fault::DirectoryHasSize) => size_of(tag),
            _ => 0,
        }
    }

    /// "`lfs_dir_getgstate` XORs the move state found; with none, all stays."
    pub fn gstate_and_say(&self, input: &Lookup, state: &mut Gstate) -> (i32, bool) {
        let mut found = [0; 12];
        let key = tag_of(MOVE_STATE, 0, 12);
        let query = query_of(0x7ff, self.has(Fault::MoveStateHasId), key);
        let got = self.slice(input, query, &mut found);
        let ours = got.result == 0 && got.tag & INVALID != 0;
        match got.result {
            0 => {}
            NOENT if !self.has(Fault::NoMoveStateIsNoent) => return (0, ours),
            refusal => return (refusal, ours),
        }
        let words = [0, 4, 8].map(|at| match self.fault {
            Fault::MoveStateBigEndian => be32(&found, at).unwrap_or(0),
            _ => le32(&found, at).unwrap_or(0),
        });
        if self.has(Fault::MoveStateReplaces) {
            *state = Gstate::default();
        }
        state.tag ^= words[0];
        state.pair[0] ^= words[1];
        if !self.has(Fault::LastWordStays) {
            state.pair[1] ^= words[2];
        }
        (0, ours)
    }
}

fn query_of(types: u32, ids: bool, key: u32) -> Query {
    let id_bits = if ids { ID_BITS } else { 0 };
    Query {
        mask: types << 20 | id_bits,
        key,
        offset: 0,
    }
}
