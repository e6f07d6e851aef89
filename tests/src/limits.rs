//! What the format and the two services take.

/// The most records of a sheet.
pub const MOST_RECORDS: usize = 128;

#[derive(Clone, Copy)]
pub struct Limits {
    /// The most atoms, fresh ones included.
    pub atoms: usize,
    /// The most atoms of a component.
    pub component: usize,
    /// The most entries of a sequence.
    pub entries: usize,
}

/// The format's limits: the office takes all that is within them.
pub const OFFICE: Limits = Limits { atoms: 64, component: 10, entries: 640 };
pub const HUB: Limits = Limits { atoms: 24, component: 4, entries: 96 };
