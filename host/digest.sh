#!/usr/bin/env bash
# Prints a digest of what the library's archive rests on: crates.txt, every crate's src, specs and proofs (and not
# its out/, which rt made), and the kit.
set -euo pipefail
cd "$(dirname "$(readlink -f "${BASH_SOURCE[0]}")")/.."

kit=$(rt version)
files=$(find crates/*/src crates/*/specs crates/*/proofs -type f | LC_ALL=C sort)
{
    echo "$kit"
    tr '\n' '\0' <<<"crates.txt"$'\n'"$files" | xargs -0 sha256sum
} | sha256sum | cut -d ' ' -f 1
