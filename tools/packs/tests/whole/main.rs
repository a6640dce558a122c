//! The library and the program on files of the repository. None of it runs kbdtrace.

mod document;
mod files;
mod program;
mod samples;
mod traces;
