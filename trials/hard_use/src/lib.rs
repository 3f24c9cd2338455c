//! The C calls on bytes that stand between guard pages, against the model.

pub mod converted;
pub mod counts;
pub mod desk;
pub mod fault;
pub mod file;
pub mod fronts;
pub mod memory;
pub mod model;
mod opening;
mod raw;
mod small_book;
pub mod sources;
pub mod stack;
pub mod watch;
pub mod wild;
pub mod worker;
