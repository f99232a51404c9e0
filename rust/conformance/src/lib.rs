//! What the library is held to.
//!
//! [`oracle`] answers every operation in the plainest way that the
//! specification allows: it parses into a tree, enumerates states and keeps every case.
//! [`gen`] makes problems, plans and lists from fixed seeds, and [`harness`]
//! compares a library's whole answers and buffers with the oracle's. [`desk`] is
//! what the desk program prints, and [`shell`] what the shell's program says. [`families`] are problems of any size with right
//! plans, and [`examples`] the files of the folder of that name, made of them.
//! [`version`] has the numbers that all of them go by.

pub mod answer;
pub mod desk;
pub mod encode;
pub mod examples;
pub mod families;
pub mod gen;
pub mod harness;
pub mod model;
pub mod oracle;
pub mod shell;
pub mod trial;
pub mod version;
