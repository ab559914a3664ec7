//! Every call that changes a file goes wrong once: it fails, or the program is
//! killed there, or the machine stops. After each the job goes on, and its
//! table is that of a search that nothing stopped. `failing.c` is what makes
//! the calls go wrong.

#[path = "../common/mod.rs"]
mod common;

mod calls;
mod faults;
mod older;
mod order;
