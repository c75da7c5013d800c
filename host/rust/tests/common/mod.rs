//! What the tests share: random numbers, guarded columns, requests, tables, windows and reflected trees
//! made at random, the two implementations called side by side, and the C library's calendar.
#![allow(dead_code)]

pub mod both;
pub mod bytes;
pub mod calendar;
pub mod guarded;
pub mod reflected;
pub mod requests;
pub mod rng;
pub mod tables;
pub mod windows;
