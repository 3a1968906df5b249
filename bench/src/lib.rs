//! The proved functions for Rust. `coding`, `parties` and `title` are the three layers, and `recordings` stands beside the layers; each
//! function is a thin wrapper around the one of an archive. `Title` keeps one page and carries its deposits and readings out from start
//! to end.

pub mod answer;
pub mod measures;

#[cfg(feature = "archives")]
pub mod coding;
#[cfg(feature = "archives")]
mod operation;
#[cfg(feature = "archives")]
pub mod parties;
#[cfg(feature = "archives")]
pub mod recordings;
#[cfg(feature = "archives")]
pub mod title;

pub use answer::{Answer, ClientAnswer};
pub use measures::{Measures, Version};

#[cfg(feature = "archives")]
pub use operation::Title;
