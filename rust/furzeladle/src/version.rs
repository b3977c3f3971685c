//! Which library was linked.
use crate::sys;
use std::fmt;

/// A version of the library: one with a greater minor number adds and leaves what stands.
#[derive(Clone, Copy, Debug, PartialEq, Eq, PartialOrd, Ord, Hash)]
pub struct Version {
    /// Raised where something that stood has changed.
    pub major: u32,
    /// Raised where something was added.
    pub minor: u32,
    /// Raised where neither.
    pub patch: u32,
}

/// The version of the library that was linked.
///
/// ```
/// assert!(furzeladle::version().to_string().starts_with("1."));
/// ```
#[must_use]
pub fn version() -> Version {
    // SAFETY: nothing is lent.
    let number = unsafe { sys::furzeladle_version() };
    Version {
        major: number / 10_000,
        minor: number / 100 % 100,
        patch: number % 100,
    }
}

impl fmt::Display for Version {
    fn fmt(&self, to: &mut fmt::Formatter) -> fmt::Result {
        write!(to, "{}.{}.{}", self.major, self.minor, self.patch)
    }
}
