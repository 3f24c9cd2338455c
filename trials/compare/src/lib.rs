//! What the comparison shares with the other trials: its cases, and the run over the places of a seed.

pub mod damage;
pub mod kind;
pub mod permute;
pub mod run;
