//! Porting mistakes that can be put into the plain book.

plain::mistakes! {
    /// no mark is made
    NoMark,
    /// every entry is marked
    MarkAll,
    /// every version of the author at r-1 is marked
    MarkVersions,
    /// an ill-formed previous point is not marked
    MarkWellFormed,
    /// a previous point that is not valid is not marked
    MarkValid,
    /// the mark is taken back where the verdict is Invalid
    MarkTakenBack,
    /// the mark is made where the list isn't needed too
    MarkUnneeded,
    /// a previous point that isn't kept doesn't count as certified
    PrevUncertified,
    /// includes are listed before witness
    IncludesFirst,
    /// versions are listed before the maps
    VersionsFirst,
    /// versions are listed from the last one on
    VersionsReversed,
    /// versions are not listed
    NoVersions,
    /// the lower indirect target is listed first
    LowerTargetFirst,
    /// of two indirect targets of one round the trigger's is listed first
    TriggerOnTie,
    /// indirect targets are not listed
    NoTargets,
    /// only the earliest entry of an author and round can be the first valid one
    FirstOfAll,
    /// the latest valid entry is the first valid one
    LatestValid,
    /// every valid entry is a first one
    EachValid,
    /// a dependency is looked up without its digest
    AnyDigest,
    /// an entry is kept certified
    KeptCertified,
    /// an entry is kept before all others
    KeptFirst,
    /// Fail is kept
    KeptFail,
    /// ill-formed points are not kept
    IllFormedLeft,
    /// invalid points are not kept
    InvalidLeft,
    /// a root is kept as one that came through includes
    RootThroughIncludes,
    /// a root is kept with reason 1
    RootReason,
    /// an exact fit is refused
    FitRefused,
    /// the 4,096th entry is refused
    LastRefused,
    /// 12 is tested before 11
    FullFirst,
    /// another version of a kept point is refused as kept
    VersionIsKept,
    /// in reading, what stands after the entries is not tested
    AnythingAfter,
    /// in reading, an id may stand twice
    IdTwice,
    /// in reading, there may be more entries
    MoreEntries,
    /// in reading, reason numbers are not tested
    AnyReason,
    /// in reading, what a state doesn't have is not tested
    AnyRoot,
    /// in reading, the root's round is not tested
    AnyRootRound,
    /// in reading, rounds and times are not tested
    AnyDomain,
    /// in reading, direct links needn't name a peer
    AnyLink,
    /// in reading, an ill-formed entry's direct links have to name a peer
    IllFormedLink,
    /// in reading, the settings' limits are not tested
    AnyLimits,
    /// in reading, a book may be longer
    AnyLength,
}

impl Mistake {
    /// Whether it is made in reading a book's bytes, so that only damaged books notice it.
    pub fn is_in_reading(self) -> bool {
        self as usize >= Self::AnythingAfter as usize
    }
}
