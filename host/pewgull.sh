#!/usr/bin/env bash
# Builds what the tool needs and runs the tool with the words given. The proved library is built where it is missing or
# where anything that it rests on has changed. Ends with the tool's status, or with 3 where something could not be built.
set -uo pipefail
host=$(dirname "$(readlink -f "${BASH_SOURCE[0]}")")
lib=$host/lib log=$host/lib/build.log
# cargo's usual place, where it is not on the path
command -v cargo >/dev/null || export PATH="${CARGO_HOME:-${HOME:-}/.cargo}/bin:$PATH"

fail() {
    echo "pewgull: $1" >&2
    exit 3
}

command -v rt >/dev/null || fail "rt is missing: install the Rattle toolchain and put it on the path"
command -v cargo >/dev/null || fail "cargo is missing: install Rust"
command -v cc >/dev/null || fail "cc is missing: install a C compiler, cargo links with it"

digest=$("$host/digest.sh") || fail "cannot read the sources of the library"
if [ ! -f "$lib/libinterface.a" ] || [ "$digest" != "$(cat "$lib/digest" 2>/dev/null)" ]; then
    echo "pewgull: proving and building the library first: about seven minutes" >&2
    "$host/build-library.sh" >/dev/null || exit 3
fi
cargo build --quiet --release --offline --locked --manifest-path "$host/pewgull/Cargo.toml" >>"$log" 2>&1 ||
    fail "cargo could not build the tool: see $log"
exec "$host/pewgull/target/release/pewgull" "$@"
