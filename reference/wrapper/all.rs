//! All builds in one library, each under its own prefix.

pub extern crate reference_counted;
pub extern crate reference_exported;
pub extern crate reference_platform;
