# Sourced by the tests, which set `name`: sets `rust` to the folder of the Rust.
# Without the Rust nothing is run; that is a failure in CI or where LINTELPEAR_RUST names a folder.

not_run() { # WHY: ends the test
    if [ "${CI:-}" = true ] || [ -n "${LINTELPEAR_RUST:-}" ]; then
        echo "$name: FAILED: $1"
        exit 1
    fi
    echo "$name: NOT RUN: $1"
    exit 0
}

given=${LINTELPEAR_RUST:-../shared/docs/src}
# A relative folder is seen from the repository's top, as in tree.rs.
rust=$(cd "$(dirname "${BASH_SOURCE[0]}")/.." && cd "$given" 2>/dev/null && pwd) || rust=
[ -n "$rust" ] || not_run "the Rust is not at $given"
