//! The crate's root for the five published files, which `build.sh` puts beside it.
//! The published root isn't among the papers; this one declares what the files refer to.

pub mod generic;
pub mod global_router;
pub mod interval;
pub mod point;
pub mod vector2;

pub use crate::vector2::Vector2;
