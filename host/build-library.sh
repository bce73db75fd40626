#!/usr/bin/env bash
# Makes host/lib/libinterface.a: proves the crate `interface_c`, whose exports are the calls for C, and each crate below it,
# builds the static library and copies its archive, which `rt ci` would remove. Beside it stand the digest of what it rests
# on and the kit's identity. What earlier checks proved is not proved again here; `rt ci` proves all from nothing. The
# toolchain's lines go to host/lib/build.log. Where it fails it says so in one line and ends with 3.
set -uo pipefail
host=$(dirname "$(readlink -f "${BASH_SOURCE[0]}")")
lib=$host/lib log=$host/lib/build.log crate=$host/../crates/interface_c

fail() {
    echo "pewgull: $1" >&2
    exit 3
}

command -v rt >/dev/null || fail "rt is missing: install the Rattle toolchain and put it on the path"
mkdir -p "$lib" || fail "cannot write to $lib"
# taken first, so that a change during the build shows; stored last, so that a build cut short does not count
digest=$("$host/digest.sh") || fail "cannot read the sources of the library"
rm -f "$lib/digest"
# the crates below are proved first, lowest first
(cd "$crate" && rt lib) >"$log" 2>&1 || fail "the library could not be proved and built: see $log"
rt version >"$lib/kit" &&
    cp "$crate/out/libinterface_c.a" "$lib/libinterface.a.new" &&
    mv "$lib/libinterface.a.new" "$lib/libinterface.a" &&
    echo "$digest" >"$lib/digest" || fail "cannot write to $lib"
echo "host/lib/libinterface.a"
