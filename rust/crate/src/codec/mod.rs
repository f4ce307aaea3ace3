//! The codec at one level, which is a set of processor features. `level/x86.rs` and
//! `level/aarch64.rs` include this module by its path, once for each of their levels, after the
//! macros that depend on the level: `at_level!`, `call_at_level!`, `table!` and `block!`.
//!
//! `bytes`, `encode`, `decode` and `calls` are erased from the proved library by `erase.py`. The
//! other modules are written by hand: `simd` and `memory` stand for parts of Rattle's standard
//! library, `kit` for a crate of its kit, and `surface` has the calls with Rust's types.
#![allow(dead_code, unused_imports, unused_macros, clippy::all)]

pub mod bytes;
pub mod calls;
pub mod decode;
pub mod encode;
pub mod kit;
pub mod memory;
pub mod simd;
pub mod surface;
