//! Two nights compared: the library's calls, and the command.

// The comparison with the model uses all of these two; here only some.
#[allow(dead_code)]
mod generate;
#[allow(dead_code)]
mod model;
mod shell;

mod compare {
    mod command;
    mod library;
    mod lines;
    mod many;
    mod random;
}
