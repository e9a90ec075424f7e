//! The limits of a call.

/// How many classes a chain may look up, and how many objects a script object's path may have, its own counted.
///
/// ```
/// assert_eq!(classreport::Limits::default(), classreport::Limits::BOOTHS);
/// ```
#[derive(Debug, Clone, Copy, PartialEq, Eq, Hash)]
pub struct Limits {
    /// 1 to 64.
    pub lookups: u32,
    /// 1 to 65.
    pub objects: u32,
}

impl Limits {
    /// The greatest that there are, which the booths keep.
    pub const BOOTHS: Limits = Limits {
        lookups: 64,
        objects: 65,
    };

    /// Those of the teaching rooms.
    pub const TEACHING: Limits = Limits {
        lookups: 8,
        objects: 4,
    };
}

impl Default for Limits {
    fn default() -> Limits {
        Limits::BOOTHS
    }
}
