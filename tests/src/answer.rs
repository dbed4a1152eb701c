//! Why a call refuses, and what it answers.

/// One test of 01 or 02 that can be the first to fail. Several share a number.
#[derive(Clone, Copy, Debug, PartialEq, Eq, PartialOrd, Ord)]
pub enum Why {
    CardLength,
    ChipLength,
    DeviceKeyLength,
    IvLength,
    NameBufferLength,
    KeyBufferLength,
    StagingLength,
    MixBufferLength,
    /// Fewer entries than a decoded mix can have.
    TagsLength,
    LevelsLength,
    PansLength,
    /// Not as many levels, or pans, as tags.
    LevelsDiffer,
    PansDiffer,
    CardDamaged,
    ChipDamaged,
    /// Each slot is well shaped, but they aren't in the order of 02, No. 7.
    CardOrder,
    ChipOrder,
    BadName,
    BadPrefix,
    BadIdentifier,
    NameTooLong,
    /// A mix may be kept only under a name with "mix/" in front.
    NotAMixName,
    BadFlags,
    DataTooLong,
    DeclaredTooLong,
    NotFound,
    OldWriteOnce,
    NewWriteOnce,
    WriteOnceOnChip,
    NotWellFormed,
    FlagsDiffer,
    NoPlace,
    NoEntry,
    CmacWrong,
    GoneFromCard,
    EntryAbsent,
    EntryDiffers,
    /// No flag 8, though the chip holds the name (02, No. 4): in a record that is read,
    /// or in the flags of a set.
    Downgraded,
    MaterialTooLong,
    NotAKeyFile,
    OffsetBeyondData,
    HandleNameLength,
    HandleDeclared,
    HandleCount,
    ChunkPastDeclared,
    DataMissing,
    /// Bytes over or missing.
    MixLength,
    MixCount,
    MixTag,
    MixLevel,
    MixPan,
    /// A byte that the tag doesn't use isn't zero.
    MixUnused,
    /// Two or more records hold the session.
    Ambiguous,
}

impl Why {
    /// The number of 01's table, or of 02's request.
    pub fn number(self) -> u32 {
        use Why::*;
        match self {
            CardLength | ChipLength | DeviceKeyLength | IvLength | NameBufferLength
            | KeyBufferLength | StagingLength | MixBufferLength | TagsLength | LevelsLength
            | PansLength | LevelsDiffer | PansDiffer => 1,
            CardDamaged | ChipDamaged | CardOrder | ChipOrder => 2,
            BadName | BadPrefix | BadIdentifier | NameTooLong | NotAMixName => 3,
            BadFlags => 4,
            DataTooLong | DeclaredTooLong => 5,
            NotFound => 6,
            OldWriteOnce | NewWriteOnce | WriteOnceOnChip => 7,
            NotWellFormed => 8,
            FlagsDiffer => 9,
            NoPlace | NoEntry => 10,
            CmacWrong => 11,
            GoneFromCard | EntryAbsent | EntryDiffers | Downgraded => 12,
            MaterialTooLong | NotAKeyFile => 13,
            OffsetBeyondData => 14,
            HandleNameLength | HandleDeclared | HandleCount | ChunkPastDeclared | DataMissing => 19,
            MixLength | MixCount | MixTag | MixLevel | MixPan | MixUnused => 20,
            Ambiguous => 21,
        }
    }
}

/// What a call leaves: its number, its returned numbers (0 where it has none),
/// and every byte of the buffers it may write.
#[derive(Clone, Debug, PartialEq, Eq)]
pub struct Answer {
    pub number: u32,
    pub returned: [u64; 2],
    pub card: Vec<u8>,
    pub chip: Vec<u8>,
    pub output: Vec<u8>,
    /// Empty for a call that writes none.
    pub handle: Vec<u8>,
    /// Of a decoded mix, as bits; empty for any other call.
    pub levels: Vec<u32>,
    pub pans: Vec<u32>,
}
