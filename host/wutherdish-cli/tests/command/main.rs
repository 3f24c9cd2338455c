//! The command `wutherdish` as its users call it.

mod cases;
mod clearing;
mod compose;
mod convert;
mod explain;
mod files;
mod force;
mod names;
mod network;
mod record;
mod room;
mod run;
mod show;
mod streams;
mod tally;
mod trail;
mod usage;
mod xml;
