//! The faults: each a change of the second implementation in one place.
//!
//! Assumes that each one, where it matters, gives another answer on some input
//! of the generators: `oracle teeth` looks for that input.

/// Where a fault must show.
#[derive(Clone, Copy, Debug, PartialEq, Eq)]
pub enum Seen {
    /// Against the Rust.
    Rust,
    /// Against the second implementation itself, on what is Ours or outside the
    /// compared domain.
    Ours,
}

macro_rules! faults {
    ($fault:ident $faults:ident; $($name:ident $seen:ident $text:literal;)*) => {
        #[derive(Clone, Copy, Debug, PartialEq, Eq)]
        pub enum $fault {
            None,
            $($name,)*
        }

        /// Every fault but none, with its text.
        pub const $faults: &[($fault, $crate::model::Seen, &str)] = &[
            $(($fault::$name, $crate::model::Seen::$seen, $text),)*
        ];
    };
}

pub(super) use faults;

faults! { Fault FAULTS;
    ForwardResets Rust "fetch: forward check reset at each commit";
    CheckTagUnsummed Rust "fetch: check tag left out of the checksum";
    RevisionUnsigned Rust "fetch: unsigned revision order";
    RevisionSigned Rust "fetch: revisions compared as signed words";
    RevisionBigEndian Rust "fetch: revision read big-endian";
    EqualRevisionsSecond Rust "fetch: equal revisions, second block first";
    RevisionUnsummed Rust "fetch: revision left out of the checksum";
    SumGoesOn Rust "fetch: checksum not restarted at a commit";
    SumFromZero Rust "fetch: checksum restarted at 0";
    CheckDataSummed Rust "fetch: data of a check summed";
    CheckIsExact Rust "fetch: only 0x500 and 0x501 are checks";
    CheckByType1 Rust "fetch: 0x580 to 0x5fe are checks";
    ShortCheckStops Rust "fetch: a check of size below 4 or 1,023 stops";
    CheckMayPass Rust "fetch: a check may pass the block";
    EntryAtEndStops Rust "fetch: an entry that ends at the block's end stops";
    RemovalHasData Rust "fetch: a removal is 1,023 bytes long";
    PreviousUnflipped Rust "fetch: previous tag not flipped";
    EndTagUnflipped Rust "fetch: end tag not flipped";
    SeedBigEndian Rust "fetch: seed over big-endian bytes";
    SeedOnce Rust "fetch: seed once only";
    SeedXored Rust "fetch: seed XORed with the checksum";
    SeedForgotten Rust "fetch: seed as given behind uncommitted entries";
    ErasedSumFits Rust "fetch: a checksum of 0xffffffff always fits";
    ZeroSumFits Rust "fetch: a checksum of 0 always fits";
    SecondBlockGoesOn Rust "fetch: second block's state not reset";
    SecondBlockUntried Rust "fetch: second block never tried";
    UncommittedShown Rust "fetch: uncommitted count and tail shown";
    RevisionOfFirst Rust "fetch: revision of the block that ranks first";
    PairAsGiven Rust "fetch: pair not swapped when the second answers";
    NameRaisesToId Rust "fetch: name raises count to id";
    NameSetsCount Rust "fetch: name sets count";
    SuperblockIsNoName Rust "fetch: a superblock name does not count";
    RemovalIsNoName Rust "fetch: a removed name does not count";
    SpliceIsExact Rust "fetch: only 0x401 and 0x4ff are splices";
    SpliceUnsigned Rust "fetch: splice unsigned";
    CountUnclamped Rust "fetch: count not clamped at 0";
    CountWide Rust "fetch: count modulo 2^32";
    CountSaturates Rust "fetch: count stays at 65,535";
    CountBelow1023 Rust "fetch: -2 at 1,023";
    CountTo1024 Rust "fetch: 1,024 accepted";
    NoentHasNoRecord Rust "fetch: -2 with a zero record";
    NoentHasOldSeed Rust "fetch: -2 with the seed as given";
    TailIsExact Rust "fetch: only 0x600 and 0x601 are tails";
    TailResets Rust "fetch: tail reset at each commit";
    TailFromZero Rust "fetch: tail begins as two zeros";
    TailSwapped Rust "fetch: tail's words swapped";
    SplitFromBit1 Rust "fetch: split from the wrong bit";
    RemovedTailUnread Rust "fetch: removal-sized tail reads 0 bytes";
    ShortTailUnread Rust "fetch: tail of size below 8 reads 0 bytes";
    ForwardByType2 Rust "fetch: 0x580 to 0x5fe are forward checks";
    ShortForwardUnread Rust "fetch: forward check of size below 8 ignored";
    FirstForwardKept Rust "fetch: first forward check kept, not the last";
    ForwardFromZero Rust "fetch: forward checksum from 0";
    EmptyForwardFails Rust "fetch: forward check of length 0 never fits";
    ErasedUnaligned Rust "fetch: erased without the alignment test";
    ErasedByMask Rust "fetch: erased by program size as a mask";
    ErasedBehindEntries Rust "fetch: erased behind uncommitted entries";
    ErasedAtAnyStop Rust "fetch: erased though the stop was no invalid tag";
    ErasedWithoutForward Rust "fetch: erased without a forward check";
    BlockCountIncluded Rust "fetch: block number equal to block count accepted";
    SecondNumberUntested Rust "fetch: second number not held against block count";
    ForwardMayPass Ours "fetch: forward length past the block accepted";
    ForwardUncommitted Ours "fetch: the record's forward check not yet committed";
    ForwardOfLastCommit Ours "fetch: the record's forward check reset at each commit";
    ForwardIfItFits Ours "fetch: the record's forward check only where it fits";
    ForwardSwapped Ours "fetch: the record's forward size and checksum swapped";
    ForwardUnshown Ours "fetch: the record without a forward check";
    NoentHasNoForward Ours "fetch: -2 without the forward check";
    RefusalHasRecord Ours "fetch: a refusal's record is not zero";

    MatchBeforeSplice Rust "lookup: match tested before the splice is added";
    RemovalAnswers Rust "lookup: a removal answers";
    RefusalZeroesBuffer Rust "lookup: buffer touched on a refusal";
    IdOf16Bits Rust "lookup: id compared after wrapping to 16 bits";
    SpliceBelowOnly Rust "lookup: a splice at the id is not added";
    SpliceAtPlainId Rust "lookup: splices compared with the unadjusted id";
    SplicesAreOne Rust "lookup: each splice adds one id";
    CreateOfAnySize Rust "lookup: create compared without size";
    CreateWithoutBit31 Rust "lookup: create compared without bit 31";
    CreateUnseen Rust "lookup: create does not end the search";
    DifferenceStaysInId Rust "lookup: difference kept within the id's bits";
    MoveAtAdjustedId Rust "lookup: pending move against the adjusted id";
    MoveNeedsBothBlocks Rust "lookup: pending move needs both blocks";
    MoveNeedsOrder Rust "lookup: pending move needs the pair in order";
    MoveByWholeType Rust "lookup: pending move by the whole type";
    MoveIgnored Rust "lookup: pending move ignored";
    MoveLowersNothing Rust "lookup: pending move lowers nothing";
    MaskNeedsNoIds Rust "lookup: splices and moves without id bits too";
    Bit31Kept Rust "lookup: bit 31 of earlier tags kept";
    EndTagCleared Rust "lookup: bit 31 of the end tag cleared";
    KeyCleared Rust "lookup: bit 31 of the key cleared";
    FirstTagUnread Rust "lookup: the first tag is not reached";
    RevisionIsATag Rust "lookup: the walk goes on into the revision";
    SearchEndsAtCheck Rust "lookup: only the last commit is searched";
    SearchBoundByCount Rust "lookup: ids from the record's count on are -2";
    FirstImageAlways Rust "lookup: always in the first image";
    RestUnzeroed Rust "lookup: rest of the buffer not zeroed";
    ReadStopsAtEntry Rust "lookup: bytes stop at the entry's end";
    ReadFillsBuffer Rust "lookup: bytes behind the entry fill the buffer";
    OffsetFromTag Rust "lookup: offset from the tag, not its data";
    EmptyReadMayPass Rust "lookup: an empty read may pass the block";
    PastIsNoent Rust "lookup: bytes past the block are -2";
    AnswerWithoutDifference Rust "lookup: answer without the difference";
    AnswerMinusDifference Rust "lookup: answer minus the difference";
    LengthWithoutTag Ours "lookup: length without the tag's four bytes";
    LengthCutToBuffer Ours "lookup: length cut to the buffer";
    PlaceOfTag Ours "lookup: place of the tag, not of its data";
    PlaceWithOffset Ours "lookup: place with the lookup's offset added";
    GetFillsBuffer Rust "get: the whole buffer is written";
    Bit31IsError Ours "lookup: a found word with bit 31 is an error";
    OffsetWraps Ours "lookup: offset plus length wraps";
    Buffer65535 Rust "lookup: a buffer of 65,536 refused";
    Buffer65537 Ours "lookup: a buffer of 65,537 accepted";
    PairInOrder Rust "lookup: the record's pair in the given order only";
    AnyPair Ours "lookup: any pair of the record accepted";
    EndAtBlock Rust "lookup: an end at the block size refused";
    EndPastBlock Ours "lookup: an end past the block accepted";
    GetTakesShortBuffer Ours "get: a buffer shorter than the key's size accepted";

    NameCutByOne Rust "getinfo: a name of the longest length + 1 cut";
    NameMask700 Rust "getinfo: a superblock name shown";
    CtzSizeIsHead Rust "getinfo: a CTZ file's size from its head";
    StructMayLack Rust "getinfo: a slot without struct accepted";
    RootIsAFile Rust "getinfo: the root is a file";
    DirectoryHasSize Ours "getinfo: size of a directory";
    RefusalHasName Ours "getinfo: a refusal shows the name";
    LongestNameZero Ours "getinfo: longest name 0 accepted";
    LongestNameAbove Ours "getinfo: longest name 256 accepted";
    RootBeforeSizes Ours "getinfo: root before the sizes are tested";
    Id1024 Ours "getinfo: id 1,024 accepted";

    MoveStateReplaces Rust "getgstate: replaces instead of XORs";
    MoveStateBigEndian Rust "getgstate: words big-endian";
    MoveStateHasId Rust "getgstate: only of id 0";
    NoMoveStateIsNoent Rust "getgstate: no move state is -2";
    LastWordStays Rust "getgstate: the last word stays";

    BlockSize127 Ours "sizes: block size 127 accepted";
    BlockSizeAbove Ours "sizes: block size above 32,768 accepted";
    ProgSize3 Ours "sizes: program size 3 accepted";
    ProgSize513 Ours "sizes: program size 513 accepted";
    NoMultiple Ours "sizes: block size no multiple accepted";
    FirstImageOfAnyLength Ours "sizes: first image of another length accepted";
    SecondImageOfAnyLength Ours "sizes: second image of another length accepted";
    EqualNumbers Ours "sizes: equal block numbers accepted";
}
