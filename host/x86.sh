# shellcheck shell=bash disable=SC2034
# Sourced by all that builds or runs x86-64 programs, the only kind that rt makes. On x86-64 they are built and run as they
# are. On another processor Debian's cross compilers build them and qemu runs them; LANE_EMULATE=1 takes qemu on x86-64 too.
#   x86_cargo    cargo for such programs       x86_release  where it puts them, in host/
#   x86_cc       the C compiler                x86_run      what stands in front of a program that is started
#   x86_ready    installs what is missing and says so, or stops with the line to type
x86_cargo=(cargo) x86_release=target/release x86_cc=gcc x86_run=() x86_foreign=
unset LANE_EMULATOR

[ "$(uname -m)" = x86_64 ] || x86_foreign=1
case ${LANE_EMULATE:-0} in
0 | 1) ;;
*)
    echo "LANE_EMULATE is 1 or 0, not $LANE_EMULATE" >&2
    exit 2
    ;;
esac
if [ "$x86_foreign" ] || [ "${LANE_EMULATE:-0}" = 1 ]; then
    # exported for the Rust programs: compare and bench start the desk with it in front
    export LANE_EMULATOR=qemu-x86_64
    # of a program with threads that starts another, qemu's copy can wait for ever on a lock of glib's own allocator
    export G_SLICE=always-malloc
    x86_run=("$LANE_EMULATOR")
    x86_release=target/x86_64-unknown-linux-gnu/release
    # for this cargo alone: clippy and fmt are the machine's own
    x86_cargo=(env CARGO_BUILD_TARGET=x86_64-unknown-linux-gnu "CARGO_TARGET_X86_64_UNKNOWN_LINUX_GNU_RUNNER=$LANE_EMULATOR")
    if [ "$x86_foreign" ]; then
        x86_cc=x86_64-linux-gnu-gcc
        # Debian's rustc, since it has a standard library for x86-64 beside it
        x86_cargo+=("CARGO_TARGET_X86_64_UNKNOWN_LINUX_GNU_LINKER=$x86_cc" RUSTC=/usr/bin/rustc RUSTDOC=/usr/bin/rustdoc)
    fi
    x86_cargo+=(cargo)
fi

# The packages that are missing: qemu by its name, since any will do; the compilers by Debian's, since they go together.
x86_missing() {
    local package
    [ ${#x86_run[@]} = 0 ] || command -v "${x86_run[0]}" >/dev/null || echo qemu-user
    [ "$x86_foreign" ] || return 0
    for package in gcc-x86-64-linux-gnu libc6-dev-amd64-cross rustc-web libstd-rust-web-dev:amd64; do
        dpkg-query -W -f '${db:Status-Status}\n' "$package" 2>/dev/null | grep -qx installed || echo "$package"
    done
}

x86_ready() {
    local missing line said
    missing=$(x86_missing)
    [ "$missing" ] || return 0
    # --no-remove: rustc-web does not go with Debian's rustc or rustup, and what the machine has is not ours to take away
    line="${x86_foreign:+dpkg --add-architecture amd64 && }apt-get update && apt-get install -y --no-remove --no-install-recommends ${missing//$'\n'/ }"
    if [ "$(id -u)" != 0 ] || ! command -v apt-get >/dev/null; then
        printf 'x86-64 programs cannot be built and run here yet. As root, on Debian, type:\n    %s\n' "$line" >&2
        exit 1
    fi
    echo "installing what builds and runs x86-64 programs here: $line" >&2
    # what comes by standard input is for the program that is started next
    if ! said=$(DEBIAN_FRONTEND=noninteractive sh -c "$line" 2>&1 </dev/null); then
        printf '%s\nthat failed: %s\n' "$(tail -n 5 <<<"$said")" "$line" >&2
        exit 1
    fi
}
