//! Which library is linked.

use crate::sys;
use crate::Error;
use std::fmt;

/// A version of the library's interface: its major number changes when a call changes or goes, its minor number when calls are added.
#[derive(Debug, Clone, Copy, PartialEq, Eq, PartialOrd, Ord, Hash)]
pub struct Version {
    /// The major number.
    pub major: u32,
    /// The minor number.
    pub minor: u32,
}

impl Version {
    /// What this crate was written for: it works over a library with this major number, and this minor number or a higher one.
    pub const WANTED: Version = Version { major: 2, minor: 3 };

    /// The version of the library that is linked.
    pub fn of_library() -> Version {
        // SAFETY: the function takes nothing, and returns a number.
        Version::of_number(unsafe { sys::nvmed_raw_version() })
    }

    /// Whether a library of this version serves this crate.
    pub fn serves(self) -> bool {
        self.major == Version::WANTED.major && self.minor >= Version::WANTED.minor
    }

    fn of_number(number: u32) -> Version {
        Version {
            major: number >> 16,
            minor: number & 0xffff,
        }
    }

    /// This version, where it serves this crate.
    pub(crate) fn checked(self) -> Result<Version, Error> {
        if self.serves() {
            Ok(self)
        } else {
            Err(Error::OtherVersion {
                library: self,
                wanted: Version::WANTED,
            })
        }
    }
}

impl fmt::Display for Version {
    fn fmt(&self, f: &mut fmt::Formatter<'_>) -> fmt::Result {
        write!(f, "{}.{}", self.major, self.minor)
    }
}

/// Which kind of library this program was built with.
#[derive(Debug, Clone, Copy, PartialEq, Eq)]
pub enum Library {
    /// `libnvmed.a`, as `bench/c.sh install` builds it: each of its calls is proved.
    Proved,
    /// `libnvmed-tried.a`, as `bench/c.sh try install` builds it: the same source, built without its proofs. For first steps and tests.
    Tried,
    /// The stub of this crate, by the feature `stub`: no mediator at all. For tests.
    Stub,
    /// None was found when this crate was built, so a program over it does not link.
    Missing,
}

impl Library {
    /// A line for users of a program whose library is not the proved one, and `None` where it is.
    pub fn warning(self) -> Option<&'static str> {
        match self {
            Library::Proved => None,
            Library::Tried => {
                Some("the mediator in this program was built without its proofs: use it for trials alone")
            }
            Library::Stub | Library::Missing => {
                Some("there is no mediator in this program, but a stub: use it for tests alone")
            }
        }
    }
}

/// The library that this program was built with.
pub const LIBRARY: Library = match env!("NVMED_LIBRARY").as_bytes() {
    b"proved" => Library::Proved,
    b"tried" => Library::Tried,
    b"stub" => Library::Stub,
    _ => Library::Missing,
};

/// Whether the library that this program was built with is the proved one.
pub const PROVED: bool = matches!(LIBRARY, Library::Proved);

#[cfg(test)]
mod tests {
    use super::*;

    #[test]
    fn a_library_serves_with_the_same_major_number_and_a_minor_number_that_is_no_lower() {
        let Version { major, minor } = Version::WANTED;
        assert!(Version { major, minor }.serves());
        assert!(Version {
            major,
            minor: minor + 1
        }
        .serves());
        assert!(!Version {
            major: major + 1,
            minor
        }
        .serves());
        assert!(!Version {
            major: major - 1,
            minor: 9
        }
        .serves());
        assert!(!Version {
            major,
            minor: minor - 1
        }
        .serves());
    }

    #[test]
    fn another_version_is_refused_by_an_error_that_names_both() {
        let library = Version { major: 1, minor: 7 };
        let error = library.checked().unwrap_err();
        assert!(error.to_string().contains("1.7") && error.to_string().contains(&Version::WANTED.to_string()));
    }

    #[test]
    fn the_library_that_is_linked_serves() {
        assert!(Version::of_library().checked().is_ok());
        assert_eq!(Version::of_number(0x0002_0003), Version { major: 2, minor: 3 });
    }

    #[test]
    fn what_is_not_proved_has_a_warning() {
        assert_eq!(Library::Proved.warning(), None);
        for library in [Library::Tried, Library::Stub, Library::Missing] {
            assert!(library.warning().is_some());
        }
        assert_eq!(PROVED, LIBRARY.warning().is_none());
    }
}
