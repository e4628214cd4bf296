#!/usr/bin/env bash
# The Rust side of the gate: builds what is missing, compiles and runs the C example, then every test in host/.
# LANE_ROUNDS=n multiplies the cases of the comparisons; above 1 it also plants misreadings of document 01 and demands
# that each is caught. LANE_EMULATE=1 runs all programs as an Arm machine does. Ends with a line that says all passed, or
# is not 0.
set -euo pipefail
cd "$(dirname "$0")/.."

fail() {
    echo "host: $*" >&2
    exit 1
}

echo "== how x86-64 programs are built and run"
host/test-x86.sh || fail "host/x86.sh does something else"
. host/x86.sh
x86_ready
[ ${#x86_run[@]} = 0 ] || echo "they run behind ${x86_run[*]}"
./lane build

echo "== the C example"
mkdir -p host/target
flags=(-std=c11 -O2 -Wall -Wextra -Werror -Iinclude)
"$x86_cc" "${flags[@]}" host/examples/embed.c target/staticlib/liblane_c.a -o host/target/embed || fail "embed.c does not compile or link"
"${x86_run[@]}" host/target/embed >host/target/embed.out || fail "embed.c ended with $?"
diff host/examples/embed.out host/target/embed.out || fail "embed.c prints something else than host/examples/embed.out"
if command -v g++ >/dev/null; then
    g++ -fsyntax-only -Wall -Wextra -Werror -x c++ include/lane.h || fail "include/lane.h is no C++"
fi

cd host
if cargo fmt --version >/dev/null 2>&1; then
    echo "== layout of the Rust code"
    cargo fmt --all --check || fail "some Rust file is not in the layout: run cargo fmt in host/"
fi
if cargo clippy --version >/dev/null 2>&1; then
    echo "== clippy"
    cargo clippy --offline --release --quiet --workspace --all-targets -- -D warnings || fail "clippy"
fi

echo "== tests"
more=()
[ "${LANE_ROUNDS:-1}" = 1 ] || more=(--features compare/misreadings)
"${x86_cargo[@]}" test --offline --release --quiet --workspace "${more[@]}" || fail "a test failed"

echo "== the story and the Rust example"
"${x86_cargo[@]}" build --offline --release --quiet --workspace --examples || fail "an example does not compile"
../lane story | grep -q "The second release was refused: CONFLICT" || fail "./lane story did not end in the refusal"
diff <("${x86_run[@]}" "$x86_release/examples/embed") <(head -n 5 examples/embed.out) || fail "the Rust example prints something else"
echo "host: all passed"
