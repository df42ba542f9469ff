# shellcheck shell=bash disable=SC2154
# Sourced by tests/card/run: the first call of ./card in a small copy of the repository, with stand-ins for the toolchain,
# for what it builds and for the name of the machine.
copy=$room/copy
mkdir -p "$copy/crates/"{card/src,lowest,aside,middle} "$copy/bin"
cp card programs.sh "$copy"
cat >"$copy/crates.txt" <<'END'
# three of these make up the program
lowest:
aside: lowest
card: middle lowest libc
middle: lowest io # and a library of the toolchain
END

stand_in() { # FILE: makes a command of what comes on standard input
    mkdir -p "$(dirname "$copy/$1")"
    cat >"$copy/$1"
    chmod +x "$copy/$1"
}

copied() { PATH=$copy/bin:$PATH timeout 60 "$copy/card" "$@"; }

machine() { # NAME
    printf '#!/bin/sh\necho %s\n' "$1" | stand_in bin/uname
}

machine x86_64
# It takes whatever standard input it is given, and proves the second crate only if the line of the first has been passed on.
stand_in bin/rt <<'END'
#!/usr/bin/env bash
cat >/dev/null
here=${0%/bin/rt}
case "${PWD#"$here/"}: $*" in
'crates/lowest: lib') ;;
'crates/middle: lib') grep -q '1 of 3' "$err" || exit 2 ;;
'crates/card: run')
    [ -z "${edited-}" ] || { sleep 0.1 && touch "$edited"; }
    mkdir -p out
    cp "$here/bin/program" out/card
    out/card </dev/null
    ;;
*) exit 2 ;;
esac
echo "logic=proved functions=7" >&2
END
stand_in bin/program <<'END'
#!/bin/sh
exec sed 's/^/card of /'
END

begun=$'card: proving the 3 crates of the program and building it, which from nothing takes a few minutes\n'
lowest=$'card: proved lowest, 1 of 3\n'
told=$begun$lowest$'card: proved middle, 2 of 3\ncard: proved card, 3 of 3\n'

copied --help </dev/null >/dev/null
copied --frob </dev/null 2>/dev/null
check "words have nothing proved" test ! -e "$copy/target"
printf 'a\nb\n' | copied >"$out" 2>"$err"
ends "the first call tells of each crate as it is proved, and prints cards alone" 0 $'card of a\ncard of b\n' "$told"
printf 'a\n' | copied >"$out" 2>"$err"
ends "the second call says nothing" 0 $'card of a\n' ''
source=$copy/crates/card/src/main.rt
touch "$source"
printf 'a\n' | edited=$source copied >"$out" 2>"$err"
ends "a call after a source changed proves again" 0 $'card of a\n' "$told"
printf 'a\n' | copied >"$out" 2>"$err"
ends "a call after a source changed while it was proved does too" 0 $'card of a\n' "$told"
printf 'a\n' | copied >"$out" 2>"$err"
ends "and the call after that does not" 0 $'card of a\n' ''

# ---- what the program says
stand_in target/bin/card <<'END'
#!/bin/sh
echo a card
echo it failed >&2
END
copied </dev/null >"$out" 2>"$err"
ends "what the program says on standard error is status 1" 1 $'a card\n' $'it failed\n'
machine aarch64
stand_in kit/on/aarch64/toolchain/bin/qemu-x86_64 <<'END'
#!/bin/sh
[ "$1 $2 $3" = "$lib/ld-linux-x86-64.so.2 --library-path $lib" ] && exec "$4"
END
RATTLE_HOME=$copy/kit lib=$copy/kit/on/aarch64/toolchain/lib copied </dev/null >"$out" 2>"$err"
ends "the same on Arm, under the emulator" 1 $'a card\n' $'it failed\n'
machine x86_64

# ---- programs that are not proved
stand_in bin/rt <<'END'
#!/bin/sh
case $PWD in */lowest) echo "logic=proved functions=7"; exit ;; esac
seq 30
echo "logic=not-proved" >&2
exit 1
END
unproved=$'card: the program is not proved and built; target/card.log has all that rt said\n'
last=$(seq 12 30)$'\nlogic=not-proved\n'
touch "$source"
copied </dev/null >"$out" 2>"$err"
ends "a proof that fails: the last lines of rt, and no card of the program that was built before" 1 '' "$begun$lowest$last$unproved"
proofs=$(yes 'logic=proved functions=7' | head -n 3)$'\n'
rm -r "$copy/target" "$copy/crates/card/out"
stand_in bin/rt <<'END'
#!/bin/sh
echo "logic=proved functions=7" >&2
END
copied </dev/null >"$out" 2>"$err"
ends "an rt that builds nothing" 1 '' "$begun$lowest"$'card: proved middle, 2 of 3\n'"$proofs$unproved"

rm "$copy/bin/rt"
for tool in bash cat dirname find; do ln -s "$(command -v "$tool")" "$copy/bin/$tool"; done
toolless() { (unset RATTLE_HOME && PATH=$copy/bin "$copy/card"); }
missing=$'card: the Rattle toolchain\'s command rt is not on the PATH\n'
toolless </dev/null >"$out" 2>"$err"
ends "no rt on the PATH" 1 '' "$missing"
stand_in target/bin/card </dev/null
machine aarch64
toolless </dev/null >"$out" 2>"$err"
ends "no rt on the PATH of an Arm machine, whose emulator is beside it" 1 '' "$missing"
