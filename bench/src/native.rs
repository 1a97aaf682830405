//! The library's code, compiled by Rust: the sources with their contracts left out, as `build/` wrote them for this build.

#![allow(warnings)]

include!(concat!(env!("OUT_DIR"), "/native.rs"));
