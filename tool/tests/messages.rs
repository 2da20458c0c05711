//! What is said of a refusal: each form word for word, and reports about inputs that are damaged anyhow.
//!
//!     cargo test --test messages                                   # a few seconds
//!     SAILMORTAR_LONG=20 cargo test --test messages                # twenty times as many random inputs

// The comparison with the model uses all of these two; here only some.
#[allow(dead_code)]
mod generate;
#[allow(dead_code)]
mod model;

#[path = "../src/command/binary.rs"]
mod binary;
#[path = "../src/command/cell.rs"]
mod cell;
#[path = "../src/command/element.rs"]
mod element;
#[path = "../src/command/hint.rs"]
mod hint;
#[path = "../src/command/letters.rs"]
mod letters;
#[path = "../src/command/probe.rs"]
mod probe;
// The command that compares says null as a value.
#[allow(dead_code)]
#[path = "../src/command/report.rs"]
mod report;
#[path = "../src/command/shown.rs"]
mod shown;
#[path = "../src/command/tabledata.rs"]
mod tabledata;
#[path = "../src/command/text.rs"]
mod text;
#[path = "../src/command/window.rs"]
mod window;

mod messages {
    mod base64;
    mod command;
    mod damage;
    mod declarations;
    mod hints;
    mod index;
    mod rows;
    mod said;
    mod shown;
}
