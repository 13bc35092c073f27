//! One build of the patched Rust, with the calls of the scope around it.
//!
//! The build script copies this folder beside the patched text (ekf.rs, dsp.rs, survey.rs).

#![allow(dead_code, unused_variables, unused_mut, unused_imports, unused_assignments, clippy::all)]

pub mod calls;
pub mod counts;
pub mod dsp;
pub mod ekf;
pub mod named;
pub mod shapes;
pub mod single;
pub mod survey;
pub mod window;

/// Orbits, which the port does not have: the type only has to exist.
pub mod orbit {
    pub struct OrbitModel;
}
