//! The refetch's faults: each a change of the second implementation in one place.
//!
//! Assumes that each one, where it matters, gives another answer on some question of
//! `refetch::inputs`: `oracle teeth` looks for that question.

use super::fault::faults;

faults! { RefetchFault REFETCH_FAULTS;
    SizesUntested Ours "refetch: sizes and numbers not tested";
    End7Taken Ours "refetch: an end of 7 accepted";
    End8Refused Rust "refetch: an end of 8 refused";
    EndAtBlockRefused Rust "refetch: an end at the block size refused";
    EndPastTaken Ours "refetch: an end one past the block size accepted";
    PairInOrder Rust "refetch: the record's pair in the given order only";
    AnyPair Ours "refetch: any pair of the record accepted";
    HighFirst Ours "refetch: -84 tested before -22";
    HighUntested Rust "refetch: block numbers not held against block count";
    RefusalHasRecord Ours "refetch: a refusal hands the record back";

    FirstImageAlways Rust "refetch: always in the first image";
    PreviousFromOnes Rust "refetch: previous tag begins at 0xffffffff";
    SumOfRevision Rust "refetch: checksum begins behind the revision";
    PreviousUnflipped Rust "refetch: previous tag not flipped behind a check";
    EndTagUnflipped Rust "refetch: end tag not flipped";
    CountFromZero Rust "refetch: count begins at 0";
    TailFromNone Rust "refetch: tail begins as none";
    SplitFromNo Rust "refetch: split begins as no";
    SeedFromZero Rust "refetch: seed begins at 0";
    SeedStays Rust "refetch: seed as given, whatever was committed";
    UncommittedShown Rust "refetch: uncommitted count and tail shown";
    RevisionRead Ours "refetch: revision read anew";

    ForwardDropped Rust "refetch: the record's forward check not taken";
    ForwardStays Rust "refetch: the record's forward check kept, not the last";
    ForwardUncommitted Ours "refetch: forward check not yet committed";
    ForwardUnseen Ours "refetch: forward check taken though the record has none";
    ForwardWordsStay Ours "refetch: words of no forward check handed back";
    StraightAlways Ours "refetch: straight after a commit, whatever the end tag";
    StraightNever Rust "refetch: not straight after a commit until one is met";
    ErasedStays Rust "refetch: erased mark of the record";
    ErasedFromOldEnd Rust "refetch: forward check over what the record ends at";

    CountTo1024 Rust "refetch: 1,024 accepted";
    CountOfCommits Rust "refetch: -2 only if something was committed";
    NoentHasNoRecord Rust "refetch: -2 with a zero record";
    NoentHasOldSeed Rust "refetch: -2 with the seed as given";
}
