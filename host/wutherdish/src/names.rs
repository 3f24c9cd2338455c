//! Each reason's name in the source, and what it says. Lists and books carry a dependency's own reason by its number
//! alone; there a sentence says "a point" where an answer names one.

use std::fmt::{self, Display, Formatter};

/// The number of an [`IllFormedReason`](crate::IllFormedReason), 1 to 16. 1 and 2 have no case there: lists and books
/// may hold them, and no call gives them.
#[derive(Clone, Copy, PartialEq, Eq, Debug)]
pub struct IllFormedNumber(pub u8);

/// The number of an [`InvalidReason`](crate::InvalidReason), 1 to 20. 1 and 20 have no case there: lists and books may
/// hold them, and no call gives them.
#[derive(Clone, Copy, PartialEq, Eq, Debug)]
pub struct InvalidNumber(pub u8);

/// A name and a sentence, in which `{map}`, `{role}`, `{point}` and `{way}` stand for what a reason carries.
type Row = (&'static str, &'static str);

const ILL_FORMED: [Row; 16] = [
    ("AfterLoadFromDb", "it was ill-formed when it was loaded from the database"),
    ("EvidenceSigError", "a signature of its evidence is wrong"),
    ("BeforeGenesis", "its round is before genesis"),
    ("UnknownAuthor", "its author is not among the peers of its round"),
    ("FalseGenesis", "it is of the genesis round, but its digest is not that of genesis"),
    ("TooLargePayload", "its payload is over payload_batch_bytes, or it is genesis and has a payload"),
    ("Structure", "its role, maps, links and times do not fit together"),
    ("TooManyStickyAnchors", "its seq_no is over sticky_anchors"),
    ("BadLastStickyFlag", "its is_last is set although its seq_no is not sticky_anchors, or not set although it is"),
    ("LinksAcrossGenesis", "a link of it leads to a round before genesis"),
    ("MustBeEmpty", "its {map} map is not empty so close to genesis"),
    ("UnknownPeers", "its {map} map has peers outside the set by which it is checked"),
    (
        "UnknownPeerInAnchorLink",
        "its indirect {role} link leads to a point whose author is not among the peers of that round",
    ),
    ("LackOfPeers", "its {map} map has too few peers"),
    ("NotRegular", "it is not regular, although its round and the fourth after it are in different spans"),
    ("BadWaveLink", "its role does not fit its proof link's length and whether its author leads the round"),
];

const INVALID: [Row; 20] = [
    ("AfterLoadFromDb", "it was invalid when it was loaded from the database, and not for rounds missing in the DAG"),
    ("NoRoundInDag", "its round or one of the two before it is not in the DAG"),
    ("DependencyRoundDropped", "a point that it is checked against was dropped with its round"),
    (
        "NotTrigger",
        "its previous {point} is a proof or genesis, but it is neither a trigger nor a proof with a seq_no over 0",
    ),
    (
        "TerminalTriggerBeforeLastProof",
        "it is a trigger, but its previous {point} is a proof that is not the last of its row",
    ),
    ("TimeNotGreaterThanInPrevPoint", "its time is not later than that of its previous {point}"),
    (
        "AnchorProofDoesntInheritAnchorTime",
        "it is a proof, but its anchor time is not the time of its previous {point}",
    ),
    (
        "AnchorTimeNotInheritedFromProof",
        "its anchor time is not that of the {point}, which its proof link goes through or leads to",
    ),
    (
        "MustHaveReferencedPrevPoint",
        "it has no previous point, but its author's {point} is the first valid one there, or certified and not found",
    ),
    (
        "MustHaveSkippedRound",
        "it has no previous point, but its author's {point} is not valid, so that it had to skip this round",
    ),
    (
        "DependencyTimeTooFarInFuture",
        "the {point}, which it includes, witnesses or links to, is later than it by over clock_skew_millis",
    ),
    (
        "NewerAnchorInDependency",
        "the {point}, which it includes or witnesses, has a newer anchor {role} than its own link leads to",
    ),
    (
        "AnchorLink",
        "its {role} link leads to the {point}, which it includes or witnesses and which is not of that role",
    ),
    ("AnchorLinkRole", "its indirect {role} link leads to the {point}, which is not of that role"),
    (
        "AnchorLinkBadPath",
        "its {role} link goes through the {point}, whose newest anchor of that role is not the link's target",
    ),
    ("BadStickySequence", "its seq_no is not one more than that of its previous {point}"),
    (
        "TriggerProofMismatch",
        "its trigger link {way} the {point}, whose newest anchor proof is not its proof link's target, nor older",
    ),
    ("DepIllFormed", "the {point}, which it includes, witnesses or links to, is ill-formed"),
    ("DepNotFound", "the {point}, which it includes, witnesses or links to, was not found"),
    ("AfterLoadFromDb", "it was invalid when it was loaded from the database, for rounds missing in the DAG"),
];

impl IllFormedNumber {
    /// The source's name for it; none where the number is no reason's.
    pub fn name(self) -> Option<&'static str> {
        row(&ILL_FORMED, self.0).map(|(name, _)| *name)
    }

    /// The sentence, to be filled in.
    pub(crate) fn sentence(self) -> &'static str {
        row(&ILL_FORMED, self.0).map_or(NO_REASON, |(_, sentence)| sentence)
    }
}

impl InvalidNumber {
    /// The source's name for it; none where the number is no reason's.
    pub fn name(self) -> Option<&'static str> {
        row(&INVALID, self.0).map(|(name, _)| *name)
    }

    /// The sentence, to be filled in.
    pub(crate) fn sentence(self) -> &'static str {
        row(&INVALID, self.0).map_or(NO_REASON, |(_, sentence)| sentence)
    }
}

/// What is said of a number that no reason has.
const NO_REASON: &str = "no reason has this number";

fn row(rows: &[Row], number: u8) -> Option<&Row> {
    rows.get(usize::from(number).checked_sub(1)?)
}

/// The name, the number and the sentence, without what a reason carries where that is not filled in.
pub(crate) fn write_row(f: &mut Formatter<'_>, name: Option<&str>, number: u8, sentence: &str) -> fmt::Result {
    let sentence = sentence.replace("its {map} map", "one of its maps").replace("{role}", "proof or trigger");
    let sentence = sentence.replace("the {point},", "a point").replace("{point}", "point");
    let sentence = sentence.replace("{way}", "leads to or goes through");
    write!(f, "{} ({number}), {sentence}", name.unwrap_or("unknown"))
}

impl Display for IllFormedNumber {
    fn fmt(&self, f: &mut Formatter<'_>) -> fmt::Result {
        write_row(f, self.name(), self.0, self.sentence())
    }
}

impl Display for InvalidNumber {
    fn fmt(&self, f: &mut Formatter<'_>) -> fmt::Result {
        write_row(f, self.name(), self.0, self.sentence())
    }
}
