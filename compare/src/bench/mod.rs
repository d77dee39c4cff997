//! Speed: the port beside the Rust, on the same lists of calls from the same driver.
//!
//! `lists` are the lists. `port_side` times the port as one script, `driven` call by call, with or without the file
//! operations of its orders (`disk`), and `writes` times these alone; `table` prints. The Rust's side is compiled with
//! the program `bench` (`rust`), over stand-ins that answer from a list of replies and compare nothing.

pub mod clock;
pub mod disk;
pub mod driven;
pub mod lists;
pub mod logs;
pub mod port_side;
pub mod table;
pub mod writes;
