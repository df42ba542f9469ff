# shellcheck shell=bash
# Sourced by ./card and ./ask, each with its `name` and its `usage`: takes the words of the call, proves and builds the
# program first where it is not there or a source is newer, says meanwhile on standard error how far that is, and runs it.
# shellcheck disable=SC2154

case $#:${1-} in
0:) ;;
1:--help | 1:-h) usage; exit ;;
*) usage >&2; exit 2 ;;
esac

# A closed stream is opened the wrong way round: so the program fails at it and says so, and no pipe takes its number.
{ : 3<&0; } 2>/dev/null || exec 0>/dev/null
{ : 3>&1; } 2>/dev/null || exec 1</dev/null

here=$(cd "$(dirname "$0")" && pwd -P)
program=$here/target/bin/$name
log=$here/target/$name.log

# The crates that make up the program, each after those that it uses. The toolchain's own libraries have no line in crates.txt.
name_crates() {
    awk -v program="$name" '
        function reach(name,    needed, i) {
            if (!(name in needs) || name in reached) return
            reached[name]
            for (i = split(needs[name], needed); i > 0; i--) reach(needed[i])
            print name
        }
        { sub(/#.*/, ""); sub(/:/, " "); name = $1; $1 = ""; needs[name] = $0 }
        END { reach(program) }' "$here/crates.txt"
}

say() { echo "$name: $1" >&2 || true; } # the program does not wait for somebody to listen

need_rt() {
    command -v rt >/dev/null && return
    say "the Rattle toolchain's command rt is not on the PATH"
    exit 1
}

# Proves the crates one after the other, and says of each that it is proved. The program is the last; the toolchain builds it where it
# runs it, so it is run once on nothing.
prove_crates() { # ALL CRATE...
    local all=$1 proved=0 crate built=$here/crates/$name/out/$name
    shift
    for crate in "$@"; do
        if [ "$crate" = "$name" ]; then
            (cd "$here/crates/$crate" && rt run </dev/null >/dev/null) 2>>"$log" && [ -x "$built" ] || return
        else
            (cd "$here/crates/$crate" && rt lib </dev/null) >>"$log" 2>&1 || return
        fi
        proved=$((proved + 1))
        say "proved $crate, $proved of $all"
    done
    mkdir -p "$(dirname "$program")"
    cp "$built" "$program"
}

prove() {
    local crates began
    need_rt
    mapfile -t crates < <(name_crates)
    began=$(date +%s.%N)
    say "proving the ${#crates[@]} crates of the program and building it, which from nothing takes a few minutes"
    mkdir -p "$here/target"
    : >"$log"
    if ! prove_crates "${#crates[@]}" "${crates[@]}"; then
        tail -n 20 "$log" >&2
        say "the program is not proved and built; target/$name.log has all that rt said"
        exit 1
    fi
    # So a source that changed meanwhile is newer, and one that only its date makes newer is not so at every call.
    touch -d "@$began" "$program"
}

newer() { find "$here/crates" -name out -prune -o \( -name '*.rt' -o -name '*.antt' \) -newer "$program" -print -quit; }
if [ ! -x "$program" ] || [ -n "$(newer)" ]; then
    prove
fi

run=("$program")
if [ "$(uname -m)" != x86_64 ]; then
    # Programs are for x86-64: elsewhere they run under the toolchain's emulator, with the toolchain's C library.
    [ -n "${RATTLE_HOME-}" ] || need_rt
    home=${RATTLE_HOME:-$(dirname "$(readlink -f "$(command -v rt)")")/..}
    tools=$home/on/$(uname -m)/toolchain
    run=("$tools/bin/qemu-x86_64" "$tools/lib/ld-linux-x86-64.so.2" --library-path "$tools/lib" "$program")
fi

# The program ends with 0, or at a closed pipe with 141: what it says on standard error is a failure.
status=0
{ said=$("${run[@]}" 2>&1 >&3 3>&-); } 3>&1 || status=$?
if [ -n "$said" ]; then
    printf '%s\n' "$said" >&2
    status=1
fi
exit "$status"
