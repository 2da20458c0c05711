//! Plans: whatever the threads, the parts, the cuts and the reader, every number of the answer and every byte are those of one call.
//!
//!     SAILMORTAR_LONG=20 cargo test --test plan                    # twenty times as many random inputs
//!     SAILMORTAR_SEED=130000017 cargo test --test plan NAME        # one input of one test again

// The comparison with the model uses all of these two; here only some.
#[allow(dead_code)]
mod generate;
#[allow(dead_code)]
mod model;

mod plan {
    mod any_cuts;
    mod long;
    mod memory;
    mod one_call;
    mod readers;
    mod refusals;
    mod sinks;
    mod sizes;
}
