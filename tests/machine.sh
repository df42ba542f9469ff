# shellcheck shell=bash disable=SC2034
# Sourced by tests/c/run, tests/turbo/run, tests/rust/run, bench/run and bench/itpp from the top of the repository: what they need
# of the machine. An archive is code for x86-64. Elsewhere C is built by Debian's cross compiler and run under the toolchain's
# emulator.
archives=target/staticlib
native=no
[ "$(uname -m)" = x86_64 ] && native=yes

need() { # COMMAND PACKAGES...: installs the packages if the command is missing
    command -v "$1" >/dev/null && return
    shift
    apt-get update -qq
    DEBIAN_FRONTEND=noninteractive apt-get install -qq -y --no-install-recommends "$@" >&2
}

if [ "$native" = yes ]; then
    need gcc gcc libc6-dev
    cc=(gcc)
    run=()
else
    need x86_64-linux-gnu-gcc gcc-x86-64-linux-gnu libc6-dev-amd64-cross
    cc=(x86_64-linux-gnu-gcc -static)
    kit=${RATTLE_HOME:-$(dirname "$(dirname "$(readlink -f "$(command -v rt)")")")}
    run=("$kit/on/$(uname -m)/toolchain/bin/qemu-x86_64")
fi

archive() { # NAME: builds the archive unless it is newer than every source
    local file=$archives/lib$1.a
    if [ ! -e "$file" ] || [ -n "$(find crates crates.txt -name out -prune -o -newer "$file" -print -quit)" ]; then
        ./archive "$1" >&2
    fi
}

rows() { # the 188 triples of the standard, for C to include
    mkdir -p target/outside
    sed 's/ /, /g; s/.*/{&},/' reference/lte-rows.txt >target/outside/rows.inc
}
