//! The writer's faults: each a change of the second implementation in one place.
//!
//! Assumes that each one, where it matters, gives another answer or other bytes
//! on some step of the histories: `oracle teeth` looks for that step.

macro_rules! write_faults {
    ($($name:ident $text:literal;)*) => {
        #[derive(Clone, Copy, Debug, PartialEq, Eq)]
        pub enum WriteFault {
            None,
            $($name,)*
        }

        /// Every fault but none, with its text.
        pub const WRITE_FAULTS: &[(WriteFault, &str)] = &[
            $((WriteFault::$name, $text),)*
        ];
    };
}

write_faults! {
    LengthsAfterFetch "order: -22 of the lengths behind fetch's refusals";
    RulesAfterFetch "order: -22 of the rules behind fetch's refusals";
    ErasedAfterFetch "order: -22 of the erased byte behind fetch's refusals";
    BadBeforeIrregular "order: -201 before -202";
    SpaceBeforeBad "order: -28 before -201";
    RoomBeforeSpace "order: -211, -212 and -213 before -28";
    BitBeforeMisaligned "order: -212 before -211";
    ByteBeforeMisaligned "order: -213 before -211";
    ByteBeforeBit "order: -213 before -212";
    CoincidenceBeforeRoom "order: -204 before -211, -212 and -213";
    CoincidenceBeforeSpace "order: -204 before -28";
    CoincidenceBeforeIrregular "order: compaction's -204 before -202";
    Entries8193 "sizes: 8,193 entries accepted";
    Entries8191 "sizes: 8,192 entries refused";
    Data65537 "sizes: 65,537 bytes of data accepted";
    Data65535 "sizes: 65,536 bytes of data refused";
    Rules2 "rules: 2 accepted";
    RulesOfAnyNumber "rules: any number accepted";
    RulesOfOneByte "rules: only the low byte tested";
    Erased01 "erased byte: 0x01 taken for 0x00";
    ErasedFe "erased byte: 0xfe taken for 0xff";
    ErasedByTopBit "erased byte: any taken, by its top bit";
    ErasedOfAnyByte "erased byte: any taken as it is";
    ErasedUnread "erased byte: 0xff whatever is given";

    CountFromZero "entries: c from 0, not from the record";
    CreateBelowCount "entries: create at c refused";
    CreateAnywhere "entries: create above c accepted";
    CreateWhenFull "entries: create at c = 1,023 accepted";
    LastCreateRefused "entries: create at c = 1,022 refused";
    CreateRaisesNothing "entries: c not raised by create";
    CreateHasData "entries: create with data accepted";
    DeleteAtCount "entries: delete at c accepted";
    DeleteLowersNothing "entries: c not lowered by delete";
    DeleteHasData "entries: delete with data accepted";
    EmptyName "entries: empty name accepted";
    RemovedName "entries: removed name accepted";
    Name1021 "entries: name of 1,022 bytes refused";
    NameRaises "entries: name at c raises c";
    IdAtCount "entries: id at c accepted";
    ShortStruct "entries: directory or CTZ struct below 8 bytes accepted";
    EmptyInlineRefused "entries: empty inline struct refused";
    RemovedStruct "entries: removed inline struct accepted";
    RemovalRefused "entries: removed attribute refused";
    RemovalReadsOffset "entries: removal's offset read";
    EmptyOffsetUnread "entries: offset of length 0 not read";
    OffsetWraps "entries: offset plus length wraps";
    EndOfDataRefused "entries: data at the buffer's end refused";
    TypeMasked "entries: type cut to 11 bits";
    TailOfAnyId "entries: tail or move state of any id accepted";
    LongTail "entries: tail of 12 bytes accepted";
    EmptyMoveState "entries: empty move state accepted";
    SuperblockInList "entries: superblock name accepted";
    ForwardInList "entries: forward check accepted";
    IndexFromOne "entries: index from 1";
    NoIndex "entries: no index";

    SuperblockIrregular "regular: superblock name refused";
    ForwardIrregular "regular: forward check refused";
    ForwardOfAnyLength "regular: forward check of any length accepted";
    CheckOfAnySize "regular: check of any size accepted";
    CheckNeedsNoSlot "regular: check of another id refused";
    CheckIs500 "regular: only 0x500 is a check";

    DocumentGrows "wider: names raise the count under rule 0 too";
    LittlefsRefused "wider: names raise no count under rule 1";
    ListGrows "wider: a commit's own names raise the count";
    GrowsBehindCreate "wider: count raised behind a create";
    GrowsBehindDelete "wider: count raised behind a delete";
    GrowsAtFirst "wider: count raised in the first commit alone";
    GrowsAgain "wider: count raised anew in each commit";
    StructRaises "wider: count raised by a struct";
    AttributeRaises "wider: count raised by an attribute";
    OnlyFilesRaise "wider: count not raised by a directory's name";
    SuperblockRaisesNothing "wider: count not raised by a superblock name";
    Raises1023 "wider: count raised by id 1,023";
    Raises1021 "wider: count not raised by id 1,022";
    NoGaps "wider: name that leaves slots in between refused";

    EndAtBlockRefused "space: end at the block size refused";
    CleanOnlyWhereLaid "room: clean only where bytes are stored";
    CleanToNewEnd "room: clean only up to the new end";
    CleanOneTag "room: only four bytes looked at";
    UnalignedEnd "room: old end that is no multiple accepted";
    AlignedByBlock "room: old end tested by the block size";
    BitUntestedForFf "room: for 0xff, end tag with bit 31 accepted";
    BitUntestedFor00 "room: for 0x00, end tag without bit 31 accepted";
    BitUnturned "room: for 0x00, bit 31 tested as for 0xff";
    CleanOfFf "room: clean means 0xff for 0x00 too";
    CleanOfEither "room: both 0xff and 0x00 are clean";
    LastByteNamed "room: the offset of the last byte that isn't erased";
    OffsetFromEnd "room: the byte's offset counted from the old end";
    NoOffset "room: no offset";
    NeedsErased "room: the erased mark asked for";
    CoincidenceUntested "coincidence: not tested";
    CoincidenceWithout1 "coincidence: 2 and 3 bytes only";
    CoincidenceWithout2 "coincidence: 1 and 3 bytes only";
    CoincidenceWithout3 "coincidence: 1 and 2 bytes only";
    CoincidenceWith0 "coincidence: no bytes tested too";
    CoincidenceWith4 "coincidence: all four bytes tested too";
    CoincidenceWithoutForward "coincidence: the forward check left out of the sum";
    CoincidenceOfUnchained "coincidence: of the check tag before it is chained";
    CoincidenceFillsWithFf "coincidence: filled with 0xff for 0x00 too";
    CoincidenceAgainstOnes "coincidence: compared with 0xffffffff for 0x00 too";
    CoincidenceAgainstBoth "coincidence: compared with 0xffffffff and with 0";

    ForwardAlways "forward check: always carried";
    ForwardNever "forward check: never carried";
    ForwardAtBlocksEnd "forward check: carried where no unit follows";
    ForwardNeedsTwoUnits "forward check: left out where just one unit follows";
    ForwardUncounted "forward check: its 12 bytes not counted";
    ForwardNeedsRoom "forward check: -28 where it alone has no room";
    ForwardUncompacted "forward check: left out of a compaction";
    ForwardInCompactions "forward check: left out of a commit";
    ForwardOnce "forward check: left out where the log has one";
    ForwardBehindCheck "forward check: behind the check tag";
    ForwardIs5fe "forward check: of type 0x5fe";
    ForwardHasId0 "forward check: of id 0";
    ForwardUnchained "forward check: the check tag not chained to it";
    ForwardUnsummed "forward check: left out of the checksum";
    ForwardOfTheRest "forward check: of all that is left, not of one unit";
    ForwardSumOneMore "forward check: checksum over one byte more";
    ForwardSumOneLess "forward check: checksum over one byte less";
    ForwardSumFromZero "forward check: checksum from 0";
    ForwardSumOfZeros "forward check: checksum over 0x00 for 0xff too";
    ForwardSumOfOnes "forward check: checksum over 0xff for 0x00 too";
    ForwardSumInverted "forward check: checksum inverted";
    ForwardSizeBigEndian "forward check: program size big-endian";
    ForwardSumBigEndian "forward check: checksum big-endian";
    ForwardSumFirst "forward check: checksum before the program size";
    ForwardUnstored "stores: forward check placed by no store of its own";

    ChainedFromOnes "bytes: first tag not chained to the end tag";
    ChainedWithoutBit31 "bytes: first tag chained to the end tag without bit 31";
    TagsUnchained "bytes: tags not chained";
    TagsLittleEndian "bytes: tags little-endian";
    CheckOneUnitLong "bytes: check one program unit too long";
    CheckUnpadded "bytes: check not rounded";
    AlignedByMask "bytes: check rounded by a mask";
    AlignedFromStart "bytes: check rounded from the commit's start";
    CheckIs500For00 "bytes: check is 0x500 for 0x00 too";
    CheckIs501ForFf "bytes: check is 0x501 for 0xff too";
    CheckOfOldKind "bytes: check by the old end tag, not by the byte";
    CheckHasId0 "bytes: check of id 0";
    CheckTagUnsummed "bytes: check tag left out of the checksum";
    ChecksumBigEndian "bytes: checksum big-endian";
    ChecksumInverted "bytes: checksum inverted";
    PaddingStored "stores: padding stored";
    EraseUncounted "stores: erase not counted";
    ErasedByNoStore "stores: limit 0 erases";
    Unerased "stores: block not erased";
    ErasedToFf "stores: block erased to 0xff for 0x00 too";
    AllAtOnce "stores: everything placed with the first byte";
    TwoAtOnce "stores: two bytes with one store";
    Falling "stores: bytes falling";
    ChecksumFirst "stores: checksum before its tag";
    LastUnplaced "stores: with a limit, the last byte never placed";
    LimitAnswered "stores: the limit answered";
    AllAnswered "stores: all stores answered";

    OldRecord "answer: the record before the call";
    OldForward "answer: the forward check before the call";
    OldErasedMark "answer: the erased mark before the call";
    SeedAsGiven "answer: the seed as given";
    NoentHasNoRecord "answer: -2 with a zero record";

    AnsweringBlock "compaction: writes the answering block";
    SecondBlock "compaction: always writes the second block";
    RevisionStays "compaction: revision not raised";
    RevisionByTwo "compaction: revision raised by two";
    RevisionSaturates "compaction: revision does not wrap";
    RevisionBigEndian "compaction: revision big-endian";
    RevisionUnsummed "compaction: revision left out of the checksum";
    Uncreated "compaction: no create tags";
    NamedUncreated "compaction, wider: no create before a name";
    FirstUncreated "compaction, wider: the first create left out";
    EmptyUncreated "compaction, wider: no create of a slot in between";
    GapsClosed "compaction, wider: slots in between left out";
    FullOfNames "compaction, wider: -28 not given";
    NamelessDropped "compaction: slots without a name dropped";
    StructFirst "compaction: struct before name";
    SuperblockBecomesFile "compaction: superblock name becomes a file";
    AttributesFall "compaction: attributes by falling type";
    AttributesSigned "compaction: attributes by signed type";
    EmptyAttributesDropped "compaction: empty attributes dropped";
    LastAttributeDropped "compaction: attribute 0x3ff dropped";
    TailDropped "compaction: tail left out";
    TailAlways "compaction: soft tail of none kept";
    HardNullDropped "compaction: hard tail of none dropped";
    SoftDropped "compaction: soft tail dropped";
    TailBecomesSoft "compaction: hard tail becomes soft";
    MoveStateDropped "compaction: move state left out";
    ZeroMoveStateDropped "compaction: move state of zeros dropped";
    MoveStateBeforeTail "compaction: move state before tail";
}
