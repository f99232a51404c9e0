//! The shell's program itself, on real files: each command beside the oracle, and
//! what can be wrong with files, outputs and command lines.

mod answers;
mod desk;
mod files;
mod generated;
mod naming;
mod outputs;
mod proving;
mod texts;
mod usage;
mod wrapper;
