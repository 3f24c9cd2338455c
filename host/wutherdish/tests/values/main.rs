//! Values, their bytes, and what the library makes of them.

mod book;
mod case;
mod clearing;
mod convert;
mod damage;
mod force;
mod halves;
mod inverse;
mod lists;
mod network;
mod parts;
mod random;
mod trail;
mod write;
