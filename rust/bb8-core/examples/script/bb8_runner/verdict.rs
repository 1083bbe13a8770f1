//! The outcome of a script.

/// The output of a run.
#[derive(Clone, Copy, Debug, PartialEq, Eq)]
pub enum Verdict {
    /// The results of a run, and the final state.
    Ran,
    /// One line that names the first bad line.
    Bad,
}
