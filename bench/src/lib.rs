//! A server in plain Rust, and the inputs on which it is timed beside the proved ones.

pub mod locks;
pub mod random;
pub mod records;
pub mod scheduler;
pub mod server;
pub mod slots;
pub mod store;
pub mod table;
pub mod timing;
pub mod workloads;
