//! One row from a long stream: the library's index, its file, and the two commands.

mod shell;

mod index {
    mod command;
    mod file;
    mod library;
    mod night;
}
