//! Runs of the command-line tool.

mod command;
mod faults;
mod mixtures;
mod overwriting;
mod pictures;
mod runs;
mod tool;
mod xml;
