//! A search for slow files: families to start from, mutations, a climb.
//!
//! `shapes` terms to build with, `families` sketches that are meant to hurt,
//! `mutate` small and large changes of a sketch, `measure` what a file costs,
//! `climb` the search itself.

pub mod climb;
pub mod families;
pub mod measure;
pub mod mutate;
pub mod shapes;
