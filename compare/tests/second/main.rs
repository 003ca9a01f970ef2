//! The second program, held against 01 and T-01, T-02, T-06, T-07, T-11 and T-13 of 02 by examples: P1 to P12, both sides of each
//! edge, the points at which 01 can be read in two ways, the order of the refusals, every read-only parameter, and, on the proved
//! unit too, both ports, units of several limits, bootloader FRAM, lists judged and stored, what CRC commands cost, and many bytes in
//! one call.

mod asking;
mod bench;
mod bootloader;
mod commands;
mod costs;
mod edges;
mod examples;
mod limits;
mod line;
mod many;
mod ports;
mod read_only;
mod refusals;
mod sums;
