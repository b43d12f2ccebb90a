//! Stands for the root of the crate `emcyphal`: names its unchanged files as modules, and supplies
//! the data that they take from files which are not at hand.
#![allow(dead_code, unused_imports)]
// The probes let out what the crate keeps to itself.
#![allow(private_bounds, private_interfaces)]

// First, since its macros hold in all that follows.
mod fmt;

pub mod buffer;
pub mod format;
pub mod registry;
pub mod utils;

pub use emcyphal_core as core;
pub use emcyphal_driver::frame;

pub mod marker {
    pub struct Message;
    pub struct Request;
    pub struct Response;
}

pub mod endpoint {
    /// Handed through by the registries, never looked at.
    pub struct TransferMeta;
}
