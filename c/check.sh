#!/bin/sh
# Builds ask_test, menus and ask_agree over a library that has dossier_ask, and runs them:
#   check.sh [LIBRARY]
# LIBRARY is the static library; without one the plain C stands in for it. CC is the compiler, EMULATOR what its programs run under.
# The menus of the example image are compared with what is expected; so are the messages and exit codes for bad input.
set -eu
here=$(cd "$(dirname "$0")" && pwd)
top=$here/..
plain=$top/bench/plain
work=$(mktemp -d)
trap 'rm -rf "$work"' EXIT
flags="-std=c11 -O2 -Wall -Wextra -Wconversion -Werror -I$top/include -I$here -I$plain"
failed=0

for file in attributes branches decide image permissions requests session; do
    ${CC:-gcc} $flags -c -o "$work/$file.o" "$plain/$file.c"
done
ar rcs "$work/plain.a" "$work"/*.o
if [ $# -gt 0 ]; then
    library=$1
else
    ${CC:-gcc} $flags -c -o "$work/shim.o" "$here/shim.c"
    library=$work/shim.o
fi
build() { # PROGRAM SOURCES..
    program=$1
    shift
    ${CC:-gcc} $flags -o "$work/$program" "$@" "$library" "$work/plain.a"
}
build ask_test "$here/ask_test.c" "$here/ask_images.c" "$here/ask_full.c" "$here/records.c"
build ask_agree "$here/ask_agree.c"
build menus "$here/menus.c"

fail() {
    failed=$((failed + 1))
    echo "wrong: $1"
}

# Expected file, then the arguments.
menus() {
    expected=$1
    shift
    ${EMULATOR:-} "$work/menus" "$top/examples/probe.image" "$@" >"$work/out" 2>&1 || fail "menus $*: exit code $?"
    diff "$top/examples/$expected" "$work/out" || fail "menus $*"
}

# Exit code and words of the message, then the arguments.
refuses() {
    code=$1 words=$2 got=0
    shift 2
    ${EMULATOR:-} "$work/menus" "$@" >"$work/out" 2>"$work/errors" || got=$?
    [ "$got" -eq "$code" ] || fail "menus $*: exit code $got, expected $code"
    [ ! -s "$work/out" ] || fail "menus $*: something was printed"
    grep -q "$words" "$work/errors" || fail "menus $*: message $(cat "$work/errors")"
}

${EMULATOR:-} "$work/ask_test" || fail ask_test
${EMULATOR:-} "$work/ask_agree" || fail ask_agree
menus reader.menus 3 20 100
menus late.menus 3 20 201
menus owner.menus 2 2 50
menus nobody.menus 15 64 -9223372036854775808
image=$top/examples/probe.image
head -c 679 "$image" >"$work/short"
head -c 17920 /dev/zero >"$work/zeros"
cat "$image" "$work/zeros" >"$work/long"
: >"$work/empty"
refuses 1 "no good dossier image" "$work/short" 1 1 0
refuses 1 "no good dossier image" "$work/long" 1 1 0
refuses 1 "no good dossier image" "$work/zeros" 1 1 0
refuses 1 "no good dossier image" "$work/empty" 1 1 0
refuses 1 "no good dossier image" "$top/examples/probe.calls" 1 1 0
refuses 2 "four arguments"
refuses 2 "four arguments" "$image" 1 1
refuses 2 "four arguments" "$image" 1 1 0 0
for role in 0 16 257 -1 +1 x 1x "" " 1"; do refuses 2 "ROLE must be" "$image" "$role" 1 0; done
for user in 0 65 257 -1 1.0 ""; do refuses 2 "USER must be" "$image" 1 "$user" 0; done
for time in 9223372036854775808 -9223372036854775809 - "" now; do refuses 2 "TIME must be" "$image" 1 1 "$time"; done
refuses 3 "cannot be read" "$work/none" 1 1 0
refuses 3 "cannot be read" "$work" 1 1 0
${EMULATOR:-} "$work/menus" --help | grep -q "usage: menus FILE ROLE USER TIME" || fail "menus --help"
echo "menus: $failed wrong"
[ "$failed" -eq 0 ]
