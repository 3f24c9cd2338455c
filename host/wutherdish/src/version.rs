//! Which library is linked.

use std::error::Error;
use std::fmt::{self, Display, Formatter};

use wutherdish_sys::{ABI, FORMAT};

/// The versions of a library. docs/FORMAT.md of the repository says when each changes.
#[derive(Clone, Copy, PartialEq, Eq, Debug)]
pub struct Version {
    /// That of the C calls: their names, parameters and results.
    pub abi: u8,
    /// That of the bytes that they are lent and answer with.
    pub format: u8,
    /// The first number of its release.
    pub major: u8,
    /// The second number of its release.
    pub minor: u8,
}

/// A library with another ABI or format than this crate is made for.
#[derive(Clone, Copy, PartialEq, Eq, Debug)]
pub struct OtherVersion(pub Version);

/// The versions of the linked library.
pub fn version() -> Version {
    let [abi, format, major, minor] = wutherdish_sys::wutherdish_version().to_be_bytes();
    Version { abi, format, major, minor }
}

/// The versions of the linked library, if it has the ABI and the format that this crate is made for. A host that links a
/// library which was not built with its crate asks this before it makes another call.
///
/// ```
/// let library = wutherdish::check_version()?;
/// println!("wutherdish {library}");
/// # Ok::<(), wutherdish::OtherVersion>(())
/// ```
pub fn check_version() -> Result<Version, OtherVersion> {
    version().check()
}

impl Version {
    fn check(self) -> Result<Self, OtherVersion> {
        if (self.abi, self.format) == (ABI, FORMAT) { Ok(self) } else { Err(OtherVersion(self)) }
    }
}

impl Display for Version {
    fn fmt(&self, f: &mut Formatter<'_>) -> fmt::Result {
        let Self { abi, format, major, minor } = self;
        write!(f, "{major}.{minor}, format {format}, ABI {abi}")
    }
}

impl Display for OtherVersion {
    fn fmt(&self, f: &mut Formatter<'_>) -> fmt::Result {
        write!(f, "the linked library is another version: {}; expected format {FORMAT}, ABI {ABI}", self.0)
    }
}

impl Error for OtherVersion {}

#[cfg(test)]
mod tests {
    use super::*;

    #[test]
    fn another_abi_or_format_is_refused() {
        let version = Version { abi: ABI, format: FORMAT, major: 7, minor: 9 };
        assert_eq!(version.check(), Ok(version));
        for other in [Version { abi: ABI + 1, ..version }, Version { format: FORMAT - 1, ..version }] {
            assert_eq!(other.check(), Err(OtherVersion(other)));
        }
        let other = OtherVersion(Version { abi: 3, format: 1, ..version });
        let said = "the linked library is another version: 7.9, format 1, ABI 3; expected format 2, ABI 1";
        assert_eq!(other.to_string(), said);
    }

    #[test]
    fn the_linked_library_is_of_this_release() {
        let Version { major, minor, .. } = check_version().expect("the crate is made for it");
        let numbers = [env!("CARGO_PKG_VERSION_MAJOR"), env!("CARGO_PKG_VERSION_MINOR")];
        assert_eq!([major, minor].map(|number| number.to_string()), numbers);
    }
}
