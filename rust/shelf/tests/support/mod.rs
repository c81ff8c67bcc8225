//! Shelves beside one large book of the second implementation.
#![allow(dead_code)]

pub mod compared;
pub mod shelves;
