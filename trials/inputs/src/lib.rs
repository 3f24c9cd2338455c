//! What the calls are measured and tried on.

pub mod call;
pub mod clock;
pub mod compose;
pub mod dag;
pub mod dear;
pub mod faults;
pub mod points;
