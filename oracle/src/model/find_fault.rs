//! The find's faults: each a change of the second implementation in one place.
//!
//! Assumes that each one, where it matters, gives another answer on some question of
//! `find::inputs`: `oracle teeth` looks for that question.

use super::fault::faults;

faults! { FindFault FIND_FAULTS;
    EmptyName Ours "find: empty name accepted";
    EmptyAfterFetch Ours "find: -22 of an empty name behind fetch's refusals";
    RulesOfAnyNumber Ours "find: rules of any number accepted";
    RulesAfterFetch Ours "find: -22 of the rules behind fetch's refusals";
    LongNameRefused Rust "find: name of more than 1,022 bytes refused";
    FetchRefusesNothing Rust "find: fetch's refusals answered as none";
    IrregularAccepted Ours "find: irregular log accepted";
    DocumentIsLittlefs Ours "find: littlefs's rule under rule 0 too";
    LittlefsIsDocument Rust "find: document 01's rule under rule 1 too";
    FirstImageAlways Rust "find: always in the first image";
    UncommittedFollowed Rust "find: uncommitted entries followed";
    LastCommitOnly Rust "find: only the last commit followed";

    TypeUncompared Rust "find: type not compared";
    TypeOf11Bits Rust "find: type cut to 11 bits";
    PrefixTaken Rust "find: a prefix taken for the name";
    LongerTaken Rust "find: name with more bytes taken for its start";
    LastByteUncompared Rust "find: name compared without its last byte";
    LengthOnly Rust "find: names of one length taken for each other";
    Unfound256 Rust "find: name of more than 255 bytes never found";
    LengthOf10Bits Rust "find: name's length cut to ten bits";

    CreateMovesNothing Rust "find: a create does not move the slots above it";
    CreateLeavesItsOwn Rust "find: a create does not move the slot at its id";
    CreateLosesCarry Rust "find: a create loses what passes a multiple of 64";
    DeleteMovesNothing Rust "find: a delete does not move the slots above it";
    DeleteLosesCarry Rust "find: a delete loses what passes a multiple of 64";
    DeleteLeavesName Rust "find: a deleted slot's name found";
    RenameLeavesOld Rust "find: a renamed slot's old name found";
    Highest Rust "find: the highest id, not the lowest";
    FirstNamed Rust "find: the slot named first, not the lowest id";
    IdOf8Bits Rust "find: id cut to eight bits";
    NoneIsNoent Rust "find: none answered as -2";
}
