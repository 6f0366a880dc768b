//! Safe calls of the proved library, `target/staticlib/libqonveshir.a`.
//!
//! The contracts of the library ask nothing of its inputs, so each call is a slice handed on as
//! a pointer and a length. Without the feature `link` this crate is empty.

#[cfg(feature = "link")]
mod evidence;
#[cfg(feature = "link")]
mod game;
#[cfg(feature = "link")]
mod link;
#[cfg(feature = "link")]
mod sum;

#[cfg(feature = "link")]
pub use {
    evidence::{evidence, Evidence},
    link::Proved,
};
