#!/bin/sh
# Prints the declarations of lldpa.h for Rust. After a change of the header run
#     tools/library/bindings.sh > rust/lldpa/src/sys.rs
# It needs bindgen. test_library.py checks that sys.rs is up to date. Comments are
# kept, and lldpa_statistics_told becomes Statistics, its name in the crate.
. "$(dirname "$0")/../help.sh"
set -eu
cd "$(dirname "$0")/../.."
bindgen crates/lldpa_c/include/lldpa.h --disable-header-comment --use-core --size_t-is-usize --no-layout-tests \
    --raw-line '//! The declarations of `lldpa.h`, written by tools/library/bindings.sh.' --with-derive-default \
    --with-derive-eq --with-derive-hash --with-derive-partialeq --fit-macro-constant-types \
    --allowlist-function 'lldpa_.*' --allowlist-var 'LLDPA_.*' -- -std=c99 -fparse-all-comments |
    sed -E '/^pub type __\w+ = [^;]*;$/d; s/pub type __\w+ = [^;]*;//g; s/lldpa_statistics_told/Statistics/g'
