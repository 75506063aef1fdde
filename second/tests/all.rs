//! All tests of the second program in one program, which compiles in half the time of one for each file.

mod access;
mod agree;
mod blocks;
mod chips;
mod command;
mod common;
mod diff;
mod fan;
mod fans;
mod fields;
mod generator;
mod hex;
mod known;
mod label;
mod listing;
mod receive;
mod remove;
mod retired;
mod rewrite;
mod salvage;
mod sheet;
mod text;
mod trace;
mod traps;
mod water;
mod writer;
