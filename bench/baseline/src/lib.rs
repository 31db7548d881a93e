//! An unverified implementation of the router's rules, links and simulation files, with the standard library alone.
//! The scripts in `bench/` time the proved program beside it.

pub mod arq;
pub mod fifo;
pub mod life;
mod mix;
mod net;
mod packet;
mod replay;
mod rules;
pub mod sim;
#[cfg(test)]
mod tests;
pub mod text;

pub use mix::{mix, mix_text, Rng};
pub use net::Net;
pub use packet::{decode, encode, height_text, Entry, Height, Id, Level, Packet, DELTA_MAX, TAU_MAX};
pub use replay::{hex, packet_hex, replay};
pub use rules::{Core, In, Input, Sends};
