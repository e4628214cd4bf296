#!/usr/bin/env bash
# Tries host/x86.sh on machines that this one is not: other processors, users and packages, by commands that only say so.
# Nothing is installed.
set -euo pipefail
here=$(cd "$(dirname "${BASH_SOURCE[0]}")" && pwd)
fake=$(mktemp -d)
trap 'rm -rf "$fake"' EXIT

# put NAME BODY: a command on the PATH of the machine that is tried
put() { printf '#!/bin/sh\n%s\n' "$2" >"$fake/$1" && chmod +x "$fake/$1"; }
for name in sh env grep tail cat; do ln -s "$(command -v "$name")" "$fake/$name"; done
bash=$(command -v bash)

# tried PROCESSOR USER THERE [NAME=VALUE]: what x86.sh says there, and then how it would build and run
tried() {
    rm -f "$fake/qemu-x86_64"
    put uname "echo $1"
    put id "echo $2"
    put dpkg-query "case ' $3 ' in *\" \$4 \"*) echo installed ;; *) exit 1 ;; esac"
    case " $3 " in *" qemu-user "*) put qemu-x86_64 'exit 0' ;; esac
    # shellcheck disable=SC2016
    env -i PATH="$fake" ${4+"$4"} "$bash" -euc '. "$0" && x86_ready
        echo "${x86_run[*]-} | ${x86_cargo[*]} | $x86_cc | $x86_release | ${LANE_EMULATOR-}"' "$here/x86.sh" 2>&1 || echo "status $?"
}

# same WHAT SAID EXPECTED
same() {
    [ "$2" = "$3" ] && return
    printf 'x86.sh, %s, says:\n%s\nand not:\n%s\n' "$1" "$2" "$3" >&2
    exit 1
}

install='apt-get install -y --no-remove --no-install-recommends'
compilers='gcc-x86-64-linux-gnu libc6-dev-amd64-cross rustc-web libstd-rust-web-dev:amd64'
type='x86-64 programs cannot be built and run here yet. As root, on Debian, type:'
target=CARGO_TARGET_X86_64_UNKNOWN_LINUX_GNU
emulated="env CARGO_BUILD_TARGET=x86_64-unknown-linux-gnu ${target}_RUNNER=qemu-x86_64"
crossed="$emulated ${target}_LINKER=x86_64-linux-gnu-gcc RUSTC=/usr/bin/rustc RUSTDOC=/usr/bin/rustdoc"
plain=' | cargo | gcc | target/release | '
cross="qemu-x86_64 | $crossed cargo | x86_64-linux-gnu-gcc | target/x86_64-unknown-linux-gnu/release | qemu-x86_64"

# no apt-get yet: even root is told the line
same "x86-64 with nothing" "$(tried x86_64 0 '')" "$plain"
same "x86-64, LANE_EMULATE=0" "$(tried x86_64 0 '' LANE_EMULATE=0)" "$plain"
same "x86-64, LANE_EMULATE=" "$(tried x86_64 0 '' LANE_EMULATE=)" "$plain"
same "x86-64, an emulator left in the environment" "$(tried x86_64 0 '' LANE_EMULATOR=left)" "$plain"
same "x86-64, LANE_EMULATE=yes" "$(tried x86_64 0 '' LANE_EMULATE=yes)" "LANE_EMULATE is 1 or 0, not yes
status 2"
same "x86-64, LANE_EMULATE=1, nothing there" "$(tried x86_64 0 '' LANE_EMULATE=1)" "$type
    apt-get update && $install qemu-user
status 1"
same "x86-64, LANE_EMULATE=1" "$(tried x86_64 1000 qemu-user LANE_EMULATE=1)" \
    "qemu-x86_64 | $emulated cargo | gcc | target/x86_64-unknown-linux-gnu/release | qemu-x86_64"
same "Arm, all there" "$(tried aarch64 1000 "qemu-user $compilers")" "$cross"
same "Arm, all there, LANE_EMULATE=0" "$(tried aarch64 1000 "qemu-user $compilers" LANE_EMULATE=0)" "$cross"
same "Arm, not Debian" "$(tried aarch64 0 '')" "$type
    dpkg --add-architecture amd64 && apt-get update && $install qemu-user $compilers
status 1"

# the packages come, whatever is on standard input
put dpkg 'cat >/dev/null'
put apt-get 'cat >/dev/null'
line="dpkg --add-architecture amd64 && apt-get update && $install rustc-web"
some="qemu-user ${compilers/rustc-web/}"
same "Arm, not root" "$(tried aarch64 1000 "$some")" "$type
    $line
status 1"
same "Arm, root" "$(echo calls | { tried aarch64 0 "$some" && cat; })" "installing what builds and runs x86-64 programs here: $line
$cross
calls"
put apt-get 'echo "E: no network"; exit 100'
same "Arm, root, no network" "$(tried aarch64 0 "$some")" "installing what builds and runs x86-64 programs here: $line
E: no network
that failed: $line
status 1"
