//! The proved converter beside an independent implementation of the same rules: every number of every answer and
//! every byte of every buffer, on inputs made from fixed seeds.
//!
//!     cargo test --test agreement                                  # well under a minute
//!     SAILMORTAR_LONG=20 cargo test --test agreement               # twenty times as many random inputs
//!     SAILMORTAR_SEED=4000017 cargo test --test agreement NAME     # one input of one test again

mod generate;
mod model;

mod agreement {
    mod archive;
    mod base64;
    mod cells;
    mod compare;
    mod compare_nights;
    mod declarations;
    mod index;
    mod join;
    mod library;
    mod line_ends;
    mod out_of_range;
    mod pieces;
    mod room;
    mod rows;
    mod rules;
    mod sizes;
    mod spellings;
    mod unseen;
}
