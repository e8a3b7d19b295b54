//! From the program that `tools/mir` writes out to one C99 file and its header. What is not known is an error that names
//! it; nothing is skipped and nothing guessed. `README.md` says what the translation relies on.

pub mod c_file;
pub mod c_function;
pub mod c_types;
pub mod exports;
pub mod head;
pub mod header;
pub mod mir;
pub mod mutants;
pub mod names;
pub mod nested;
pub mod shape;
pub mod term;
pub mod typing;
pub mod unknown;
