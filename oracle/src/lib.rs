//! The conditioner twice over: the Rust original made runnable ([`condition`], [`sample_guard`],
//! over the stand-in [`num_complex`]), and a second reading of document 01 ([`rules`]) that
//! shares no code with it. The tests hold the two together.

pub mod condition;
pub mod draw;
pub mod num_complex;
pub mod random;
pub mod rules;
pub mod sample_guard;
pub mod sides;
pub mod trace;
