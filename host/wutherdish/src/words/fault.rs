//! What is said of each reason beside a verdict.

use std::fmt::{self, Display, Formatter};

use super::Part;
use crate::fault::{Fault, FaultOf, SetBy};
use crate::names::write_row;

impl Display for SetBy {
    fn fmt(&self, f: &mut Formatter<'_>) -> fmt::Result {
        match self {
            Self::Presence => f.write_str("the rounds that are present"),
            Self::Direct(place) => write!(f, "direct entry {place}"),
            Self::Indirect(place) => write!(f, "indirect entry {place}"),
        }
    }
}

impl Display for Fault {
    fn fmt(&self, f: &mut Formatter<'_>) -> fmt::Result {
        FaultOf(*self, None).fmt(f)
    }
}

impl Display for FaultOf {
    fn fmt(&self, f: &mut Formatter<'_>) -> fmt::Result {
        let Self(Fault { set_by, reason, role }, point) = self;
        let mut sentence = reason.sentence().to_string();
        if let Some(id) = point {
            sentence = sentence.replace("{point}", &Part(id, f.alternate()).to_string());
        }
        if let Some(role) = role {
            sentence = sentence.replace("{role}", &role.to_string());
        }
        write!(f, "{set_by}: ")?;
        write_row(f, reason.name(), reason.0, &sentence)
    }
}
