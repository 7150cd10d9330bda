//! The C interface as a C programmer meets it: names of the header, NULL, stack, threads, the
//! example and the installed package. Needs gcc; what else a test needs and does not find, it
//! leaves out and says so.

mod building;
mod example;
mod install;
mod names;
mod null;
mod stack;
mod threads;
