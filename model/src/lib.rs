//! An independent model of the two scheduler servers, and what judges them.

pub mod files;
pub mod judge;
pub mod laws;
pub mod records;
pub mod scheduler;
pub mod server;
