//! All tests of the archive and of the programs, in one program: it is built once, and the tests share all
//! processors until the last of them ends.

#[macro_use]
mod versions;

mod blocked;
mod c_interface;
mod cases;
mod conflicts;
mod desk;
mod edges;
mod faults;
mod former;
mod gcc;
mod generated;
mod layouts;
mod lists;
mod merges;
mod merging;
mod oracle;
mod process;
mod relevance;
mod rules;
mod running_end;
mod safe;
mod search;
mod searches;
mod shell;
mod support;
mod survival;
mod text;
mod timing;
mod trials;
