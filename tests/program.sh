# shellcheck shell=bash disable=SC2154
# Sourced by tests/card/run and tests/ask/run from the top of the repository, with the program's `name`: what calls it as a
# person would, and the checks that hold of both programs. Each check has a line; `result` says how many failed.
set -u
program=$PWD/$name
room=$(cd "$(mktemp -d)" && pwd -P) || exit 1
trap 'rm -rf "$room"' EXIT
checks=0 failed=0

# What a call writes goes to these two; `ends` empties them.
export out=$room/out err=$room/err
touch "$out" "$err"

check() { # WHAT COMMAND...: the command succeeds
    local what=$1
    shift
    checks=$((checks + 1))
    if "$@"; then
        echo "ok: $what"
        return
    fi
    failed=$((failed + 1))
    echo "FAILED: $what"
    head -n 30 "$out" "$err"
}

agrees() { # FOUND STATUS OUT ERR: the status found is this one, and exactly this was written
    [ "$1" = "$2" ] || { echo "the status is $1, and should be $2"; return 1; }
    printf %s "$3" | cmp - "$out" && printf %s "$4" | cmp - "$err"
}

# No word of it may hold a command, whose status would be taken for the call's.
ends() { # WHAT STATUS OUT ERR: the call just made ended with this status and wrote exactly this
    check "$1" agrees "$?" "${@:2}"
    : >"$out"
    : >"$err"
}

result() {
    echo "$name: $checks checks, $failed failed"
    [ "$failed" = 0 ]
}

# No call may wait for ever, and each meets a broken pipe as a person's does, also where whoever runs this ignores that signal.
call() { timeout 60 env --default-signal=PIPE "$program" "$@"; }

unread="$name: standard input cannot be read"$'\n'
unwritten="$name: standard output cannot be written"$'\n'

# The program is taken away first, with rt's word that it is proved: so the call must build it, also where the gate has just done so.
build() { # whoever runs this sees how far a first build is
    rm -rf "target/bin/$name" "crates/$name/out/$name" "crates/$name/out/$name.stamp"
    "$program" </dev/null >"$out"
    ends "an empty input, and before it the program is built" 0 '' ''
    check "and it is there" test -x "target/bin/$name"
    [ "$failed" = 0 ] || { result; exit 1; }
}

check_words() { # TEXT...: --help tells of each; its example prints what it says; other words are refused
    local help text example printed
    help=$(call --help </dev/null)$'\n'
    call --help </dev/null >"$out" 2>"$err"
    ends "--help" 0 "$help" ''
    for text in "$@"; do
        check "--help tells of: $text" grep -qF -- "$text" <<<"$help"
    done
    example=$(sed -n '/^example:$/,/^$/s/^  *//p' <<<"$help")
    printed=$(tail -n +2 <<<"$example")$'\n'
    bash -c "$(head -n 1 <<<"$example")" >"$out" 2>"$err"
    ends "the example of --help prints what --help says" 0 "$printed" ''
    call -h </dev/null >"$out" 2>"$err"
    ends "-h" 0 "$help" ''
    call --frob </dev/null >"$out" 2>"$err"
    ends "an unknown word" 2 '' "$help"
    call 40 3 10 </dev/null >"$out" 2>"$err"
    ends "three words" 2 '' "$help"
    call --help --help </dev/null >"$out" 2>"$err"
    ends "two words, each of them known" 2 '' "$help"
    call '' </dev/null >"$out" 2>"$err"
    ends "an empty word" 2 '' "$help"
    call --help >/dev/full 2>/dev/null </dev/null
    ends "--help that cannot be written" 1 '' ''
}

check_streams() { # SAMPLE: an input that is answered
    printf %s "$1" | call >/dev/full 2>"$err"
    ends "a full disk, at the last write" 1 '' "$unwritten"
    yes "$1" | call >/dev/full 2>"$err"
    ends "a full disk, and lines without end: no more of them are read" 1 '' "$unwritten"
    printf %s "$1" | call >&- 2>"$err"
    ends "standard output closed" 1 '' "$unwritten"
    call </ >"$out" 2>"$err"
    ends "a folder as standard input" 1 '' "$unread"
    call <&- >"$out" 2>"$err"
    ends "standard input closed" 1 '' "$unread"
}
