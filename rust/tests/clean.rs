//! Cleaned buffers of the library, in random lists over zeroed and over old storage: judged by the recount and by storage as it
//! was before each call, without the model's rules.
#![cfg(fulcrumnest_lib)]

mod common;

use common::clean;
use common::library;
use common::sequence::setting;

/// Over zeroed storage every free buffer is zero after every call.
#[test]
fn zeroed_lists() {
    let calls = setting("FULCRUMNEST_CALLS", 1_000_000) / 4;
    let seed = setting("FULCRUMNEST_SEED", 4_000_000);
    clean::zeroed_lists(library::step, seed, calls);
}

/// Over old storage those given back are zero, and those neither taken nor given back keep every byte.
#[test]
fn old_lists() {
    let calls = setting("FULCRUMNEST_CALLS", 1_000_000) / 4;
    let seed = setting("FULCRUMNEST_SEED", 4_000_000);
    clean::old_lists(library::step, seed, calls);
}
