//! Porting mistakes.

/// An enum `Mistake`, each case with its text.
#[macro_export]
macro_rules! mistakes {
    ($($(#[doc = $text:literal])+ $name:ident,)+) => {
        #[derive(Clone, Copy, PartialEq, Eq, Debug)]
        pub enum Mistake {
            $($(#[doc = $text])+ $name,)+
        }

        impl Mistake {
            pub const ALL: &[Self] = &[$(Self::$name),+];

            /// What is done wrong.
            pub fn text(self) -> &'static str {
                match self {
                    $(Self::$name => concat!($($text),+).trim_ascii_start(),)+
                }
            }
        }
    };
}

mistakes! {
    /// F is n/3
    FloorOfPeers,
    /// evidence wants 2F+1
    EvidenceMajority,
    /// includes want 2F
    IncludesOfOthers,
    /// evidence is checked against the set at r-1
    EvidenceSet,
    /// includes are checked against the set at r
    IncludesSet,
    /// witness is checked against the set at r-1
    WitnessSet,
    /// the genesis payload is refused by its bytes
    GenesisPayloadBytes,
    /// a payload of the limit is refused
    PayloadAtLimit,
    /// the author is tested before the count at r
    AuthorFirst,
    /// the sets at r-1 and r-2 are tested before the author
    CountsFirst,
    /// the peers of indirect targets are tested after the structure
    TargetsLate,
    /// at genesis the peers of indirect targets are not tested
    TargetsPastGenesis,
    /// evidence that is empty with the author included is reported of evidence
    EmptyEvidence,
    /// a lacking previous point is tested after the author in maps
    PrevPointLate,
    /// the author in witness is tested before evidence
    WitnessBeforeEvidence,
    /// the trigger link is tested before the proof link
    TriggerLinkFirst,
    /// an indirect target may lie in its source's round
    TargetAsNewAsSource,
    /// a time equal to the anchor time passes above genesis
    EqualAnchorTime,
    /// at genesis time and anchor time may differ
    GenesisTime,
    /// at genesis the previous point is tested before the time
    GenesisOrder,
    /// the flag of the last sticky anchor is tested before their number
    LastFlagFirst,
    /// a proof of seq_no 0 is a trigger
    FirstProofIsTrigger,
    /// a direct target before genesis passes
    DirectAcrossGenesis,
    /// an evidence that has to be empty is reported as unknown peers
    EvidenceAtGenesis,
    /// the unknown peers of all maps are collected
    AllUnknown,
    /// two spans of the same peers are one
    SpansByPeers,
    /// NotRegular and the wave link are both tested where a regular point is required
    RegularAndWave,
    /// three rounds are far enough
    NearIsFar,
    /// a direct link can be far enough
    DirectIsFar,
    /// a regular leader without a previous point may not be far
    LeaderWithoutPrev,
    /// number 6 is tested before verification
    HorizonFirst,
    /// number 6 leaves r+4 out
    HorizonNow,
    /// number 8 stops at a dropped entry
    MismatchToDrop,
    /// a dropped entry to spare gives 8
    SpareDrop,
    /// dropped indirect entries make up for lacking dependencies
    IndirectDropMakesUp,
    /// number 9 is read up to a dropped entry
    UncoveredToDrop,
    /// number 9 is tested before 8
    UncoveredFirst,
    /// the first reason stays
    FirstReason,
    /// a dropped entry replaces the reason
    DropReplaces,
    /// a dropped entry doesn't end the list
    DropGoesOn,
    /// a dropped entry counts as not found
    DropIsNotFound,
    /// a dropped indirect entry ends the list
    IndirectDropEnds,
    /// indirect entries are judged after a direct reason too
    IndirectAlways,
    /// with presence 2 the entries' reason goes before the missing round
    EntriesBeforeRound,
    /// presence 0 names includes
    PresenceZeroIncludes,
    /// the window is one round longer
    WindowLonger,
    /// the window is counted from r
    WindowFromPoint,
    /// uncertified invalid entries have a window too
    WindowOfInvalid,
    /// certified invalid entries are recorded
    CertifiedRecorded,
    /// entries that are not recorded are not checked
    UnrecordedUnchecked,
    /// recorded entries are not checked
    RecordedUnchecked,
    /// a certificate rescues an ill-formed entry
    CertifiedIllFormed,
    /// a certificate rescues an entry that is not found
    CertifiedNotFound,
    /// of equal rounds the later record stays
    LaterRecord,
    /// of equal rounds the first record stays whatever its reason
    FirstRecord,
    /// the older root stays
    OlderRecord,
    /// reason 20 has a DAG round
    TwentyHasRound,
    /// a direct record goes through includes always
    DirectThroughIncludes,
    /// an indirect record goes through the entry's own author
    IndirectThroughAuthor,
    /// a record wins over Invalid
    RecordWins,
    /// a time at the skew's edge is too far
    SkewEdge,
    /// the previous point's time may be equal
    EqualPrevTime,
    /// all of is_proof_ok's reasons are set, the last stays
    AllOfProof,
    /// where a regular point is required the previous point is checked against 4 and 5
    ProofWhereRegular,
    /// a trigger after any proof is the last one
    AnyTriggerIsLast,
    /// an anchor as new as the target is newer
    AsNewIsNewer,
    /// the newest anchor of a dependency is its link's target
    TopIsTarget,
    /// 11 is tested after 12
    TimeAfterAnchors,
    /// the trigger's 12 is tested before the proof's
    TriggerAnchorFirst,
    /// sources are tested before targets
    SourcesFirst,
    /// 13 is not followed by 15
    RoleEndsPath,
    /// the sticky sequence may repeat a number
    SequenceRepeats,
    /// a previous point without a number may be followed by any
    SequenceFromNone,
    /// 17 lets a bound of the same round pass
    BoundOfSameRound,
    /// 17 asks for the same id in every round
    BoundOfAnyRound,
    /// a trigger's bound is its proof link's target
    BoundIsTarget,
    /// the anchor time of proofs is checked against 8
    AnchorTimeOfProofs,
    /// a version of the author goes on to be checked
    VersionsChecked,
    /// a version that is not found gives 9 always
    VersionNotFound,
    /// a version that isn't the first valid gives 9
    VersionNotFirst,
    /// a certified invalid version is passed over
    CertifiedVersion,
    /// 14 leaves 11 standing
    TimeBeforeRole,
    /// a target's anchor time is not tested
    TargetAnchorTime,
    /// a target's time is not tested
    TargetTime,
}
