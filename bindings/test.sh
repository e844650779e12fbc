#!/usr/bin/env bash
# Builds and tests the C header and the Rust crate on crates/entry/out/libentry.a, or on the one in the directory SHEET_LIB_DIR. Everything is
# written under target/bindings. The last line is 'N passed, 0 failed'. What needs a compiler that is not at hand is left out, which is said, and is a
# failure unless WITHOUT_BINDINGS=1 says that it is meant. `test.sh --ready` tells that alone.
set -euo pipefail
cd "$(dirname "$0")/.."
left=0
left_out() {
    echo "LEFT OUT: bindings: $1"
    left=$((left + 1))
}
if [ "$(uname -sm)" != "Linux x86_64" ]; then
    left_out "everything, libentry.a is for x86-64 Linux"
elif ! command -v cc >/dev/null; then
    left_out "everything, there is no cc"
else
    command -v c++ >/dev/null || left_out "C++, there is no c++"
    command -v nm >/dev/null || left_out "whether the library has writable data, there is no nm"
    command -v cargo >/dev/null || left_out "Rust, there is no cargo"
fi
if [ "$left" -gt 0 ] && [ "${WITHOUT_BINDINGS:-}" != 1 ]; then
    echo "WITHOUT_BINDINGS=1 says that this is meant"
    exit 1
fi
if [ "${1:-}" = --ready ] || [ "$(uname -sm)" != "Linux x86_64" ] || ! command -v cc >/dev/null; then
    exit 0
fi
work=$PWD/target/bindings
lib=${SHEET_LIB_DIR:-crates/entry/out}
mkdir -p "$work/tmp"
if [ -z "${SHEET_LIB_DIR:-}" ] && [ ! -e "$lib/libentry.a" ]; then
    if ! command -v rt >/dev/null; then
        echo "bindings: no $lib/libentry.a, and no rt to make it"
        exit 1
    fi
    (cd crates/entry && rt lib)
fi
lib=$(cd "$lib" && pwd)
export SHEET_LIB_DIR=$lib TMPDIR=$work/tmp CARGO_TARGET_DIR=$work/cargo

passed=0
failed=0
# step NAME COMMAND..: runs a command, and shows what it wrote where it fails.
step() {
    local name=$1
    shift
    if "$@" >"$work/log" 2>&1; then
        passed=$((passed + 1))
        echo "ok      $name"
    else
        failed=$((failed + 1))
        echo "FAILED  $name"
        cat "$work/log"
    fi
}

as_c() { cc -std=c99 -pedantic -Wall -Wextra -Werror -O1 -pthread "bindings/c/$1.c" "$lib/libentry.a" -o "$work/$1" && "$work/$1"; }
as_cpp() { c++ -x c++ -Wall -Wextra -Werror -O1 -pthread "bindings/c/$1.c" -x none "$lib/libentry.a" -o "$work/$1-cpp" && "$work/$1-cpp"; }
same_as_bar() { "$@" | diff - bindings/bar.expected; }
no_state() { nm "$lib/libentry.a" >"$work/symbols" && grep -q ' T sheet_run$' "$work/symbols" && ! grep -E ' [bBcCdDgGsS] ' "$work/symbols"; }
in_rust() { (cd bindings/rust && "$@"); }
crate_example() { in_rust cargo run -q --offline --locked --example bar; }

step "declarations: those of crates/entry" python3 bindings/declared.py
step "C: tests" as_c test
step "C: example" same_as_bar as_c example
step "C: stack" as_c stack
tail -n 1 "$work/log"
if command -v c++ >/dev/null; then
    step "C++: tests" as_cpp test
    step "C++: example" same_as_bar as_cpp example
fi
if command -v nm >/dev/null; then
    step "library: no writable data" no_state
fi
if command -v cargo >/dev/null; then
    step "Rust: unit, integration and doc tests" in_rust cargo test --offline --locked
    step "Rust: example" same_as_bar crate_example
    step "Rust: documentation" in_rust env RUSTDOCFLAGS="-D warnings" cargo doc --offline --locked --no-deps
    if cargo fmt --version >/dev/null 2>&1; then
        step "Rust: layout" in_rust cargo fmt --check
    fi
    if cargo clippy --version >/dev/null 2>&1; then
        step "Rust: clippy" in_rust cargo clippy -q --offline --locked --all-targets -- -D warnings
    fi
fi
echo "$passed passed, $failed failed"
[ "$failed" -eq 0 ]
