//! Wutherdish for Rust hosts: the proved calls, with their answers as Rust enums, and builders for what they take.
//!
//! docs/FORMAT.md of the repository says what the bytes of settings, schedules, records, lists and books mean;
//! "document 01" is the paper that lays them down. A host that holds such bytes hands them over as they are; one that
//! holds Rust values builds them with [`Settings`], [`Schedule`], [`Point`] and [`List`].
//!
//! | call | what it does |
//! |---|---|
//! | [`verify`] | tests a point by itself |
//! | [`judge`] | gives the verdict on a point by a list of what the host keeps: its dependencies, its author's points, its links' targets |
//! | [`judge_with_trail`] | says beside the verdict every reason that was set, and by which entry |
//! | [`clearing()`] | says which certificate would make a trans-invalid point valid |
//! | [`force`] | says every reason that some order of the list's entries gives |
//! | [`Book`] | keeps the points with their verdicts, and judges each new one by them |
//! | [`Point::to_bytes`] | writes the record of a point that the host composes |
//! | [`pairs_to_columns`], [`columns_to_pairs`] | convert point records that were stored before format 2, and back |
//! | [`lent`] | the same calls on buffers of the host, for answers as bytes |
//! | [`check_version`] | tells whether the linked library is one that this crate is made for |
//!
//! A call gives a verdict or a [`Refusal`]; a refused call has changed nothing. Answers, refusals and errors say in one
//! line what is wrong (`Display`), with ids cut short, or whole in the alternate form `{:#}`. Nothing here panics,
//! whatever the bytes.
//!
//! # The host's duties
//!
//! The library judges what it is handed; whether that is true it can't tell. Before it hands a point over, a host
//!
//! 1. checks signatures: the author's on the point's id, and every one of its evidence on the id of the author's
//!    previous point. A record only names the peers of the evidence. A point that names enough of them certifies its
//!    previous point and what lies below that, even if it is found invalid itself, and a child of any of these is then
//!    valid where it would be trans-invalid;
//! 2. computes the digest of the point and compares it with the one in its id;
//! 3. finds out who leads the point's round: the leader flag is 1 exactly for that peer;
//! 4. brings the network's schedule, with the peers of the point's round, of the two before it, of the rounds that
//!    its indirect links lead to, and with the span of the fourth after it;
//! 5. offers a point to a book after everything that it includes, witnesses or links to: a verdict stays when a parent
//!    comes late, and only a point that is kept by then can be marked certified;
//! 6. fills a list, where it judges by one, with all that belongs in it, and with the certified flags of the moment of
//!    judging ([`List`]).
//!
//! The library tests the form of what it gets, and none of these.
//!
//! How much stack a call needs, what threads may share, and what a process that is killed can leave of a book in shared
//! or mapped memory, include/wutherdish.h says.
//!
//! # Example
//!
//! A network of four peers above a genesis point: a book takes the genesis point, a point above it, and a third one
//! that includes a point which the book does not have.
//!
//! ```
//! use wutherdish::AnchorStageRole::{Proof, Trigger};
//! use wutherdish::{AnchorLink, Book, Digest, InvalidReason, PeerId, Point, PointId, PointRole};
//! use wutherdish::{Schedule, Settings, Through, Verdict};
//!
//! let [founder, ada, bea, cy, dan] = [1, 2, 3, 4, 5].map(|byte| PeerId([byte; 32]));
//! let settings = Settings {
//!     genesis_round: 11,
//!     genesis_digest: Digest([9; 32]),
//!     payload_batch_bytes: 768 * 1024,
//!     sticky_anchors: 0,
//!     clock_skew_millis: 5_000,
//!     commit_history_rounds: 20,
//! };
//! let schedule = Schedule::new(1_000).span(11, [founder]).span(12, [ada, bea, cy, dan]).to_bytes()?;
//!
//! let id = PointId { round: 11, digest: settings.genesis_digest, author: founder };
//! let genesis = Point::new(id, 70_000, 70_000).include(founder, Digest([0; 32])).role(PointRole::Genesis);
//!
//! let above = |author, digest, included| {
//!     let link = AnchorLink::Direct(Through::Includes(founder));
//!     let point = Point::new(PointId { round: 12, digest, author }, 70_001, genesis.anchor_time);
//!     point.include(founder, included).link(Proof, link).link(Trigger, link)
//! };
//! let good = above(ada, Digest([10; 32]), genesis.id.digest);
//! let lost = above(bea, Digest([11; 32]), Digest([0xab; 32]));
//!
//! let mut book = Book::open(vec![0; 65_536], &settings.to_bytes())?;
//! let is_leader = false;
//! assert_eq!(book.offer(&schedule, u8::from(is_leader), &genesis.to_bytes()?)?, Verdict::Valid);
//! assert_eq!(book.offer(&schedule, u8::from(is_leader), &good.to_bytes()?)?, Verdict::Valid);
//!
//! let verdict = book.offer(&schedule, u8::from(is_leader), &lost.to_bytes()?)?;
//! match &verdict {
//!     Verdict::Valid => println!("the point counts"),
//!     Verdict::TransInvalid(dependency) => println!("an ancestor is bad: {}", dependency.link.to),
//!     Verdict::Invalid(InvalidReason::DepNotFound { id }) => assert_eq!(id.digest, Digest([0xab; 32])),
//!     Verdict::Invalid(_) | Verdict::IllFormed(_) => println!("its author breaks the rules"),
//!     Verdict::Fail(_) => println!("the schedule is not fit to verify it"),
//! }
//! assert_eq!(
//!     verdict.to_string(),
//!     "invalid: the point abababab.. of round 11 by 01010101.., which it includes, witnesses or links to, was not found"
//! );
//!
//! let kept = book.kept()?;
//! assert_eq!(kept.len(), 3);
//! assert_eq!(kept[1].to_string(), "point 0a0a0a0a.. of round 12 by 02020202..: valid");
//! # Ok::<(), Box<dyn std::error::Error>>(())
//! ```

mod answer;
mod book;
mod build_error;
mod calls;
mod clearing;
mod convert;
mod fault;
mod field;
mod id;
mod invalid;
mod kept;
pub mod lent;
mod link;
mod list;
mod names;
mod point;
mod reasons;
mod record;
mod refusal;
mod schedule;
mod settings;
mod version;
mod words;
mod written;

pub use book::Book;
pub use build_error::BuildError;
pub use calls::{clearing, force, judge, judge_with_trail, verify};
pub use clearing::Clearing;
pub use convert::{columns_to_pairs, pairs_to_columns};
pub use fault::{Fault, FaultOf, SetBy};
pub use field::Unreadable;
pub use id::{Digest, PeerId, PointId};
pub use invalid::{InvalidDependency, InvalidReason};
pub use kept::{Kept, Status};
pub use link::{AnchorLink, IndirectLink, Through};
pub use list::{Dependency, List, State};
pub use names::{IllFormedNumber, InvalidNumber};
pub use point::{Point, PointRole};
pub use reasons::{
    AnchorStageRole, IllFormedReason, PeerCount, PointMap, StructureIssue, UninitVset, Verdict, Verified, VerifyError,
};
pub use refusal::Refusal;
pub use schedule::{Schedule, Span};
pub use settings::{SETTINGS, Settings};
pub use version::{OtherVersion, Version, check_version, version};
