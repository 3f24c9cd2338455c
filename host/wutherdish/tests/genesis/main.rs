//! A genesis point, and faults put into it.

mod book;
mod judge;
mod point;
mod verify;
