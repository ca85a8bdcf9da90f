//! The requests of document 02 that the library may lack: each is a feature of this package, and its landing makes it a default one.

#[derive(Clone, Copy, Debug, PartialEq, Eq)]
pub enum Request {
    /// All that came before.
    Before,
    /// Editions one and two, and extremes.
    C17,
    /// One record added.
    C18,
    /// The window.
    C19,
    /// Families.
    C20,
}

impl Request {
    /// Whether the library and the programs have it.
    pub fn landed(self) -> bool {
        match self {
            Request::Before => true,
            Request::C17 => cfg!(feature = "c17"),
            Request::C18 => cfg!(feature = "c18"),
            Request::C19 => cfg!(feature = "c19"),
            Request::C20 => cfg!(feature = "c20"),
        }
    }
}
