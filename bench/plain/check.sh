#!/bin/sh
# Runs every script of a folder of vectors through the plain C and compares its answers, line for line:
#   check.sh [VECTORS]
# both ways of looking up, plain and with the sanitizers. The last line says how many lines differ.
set -eu
here=$(cd "$(dirname "$0")" && pwd)
vectors=${1:-$here/../../vectors}
work=$(mktemp -d)
trap 'rm -rf "$work"' EXIT
warn="-std=c11 -Wall -Wextra -Wconversion -Werror"
scripts=0 calls=0 wrong=0

compare() { # NAME FLAGS..
    name=$1
    shift
    ${CC:-gcc} $warn "$@" -o "$work/lines" "$here"/*.c
    scripts=0 calls=0 differ=0
    for script in "$vectors"/*.calls; do
        expected=${script%.calls}.answers
        "$work/lines" "$script" >"$work/answers" 2>"$work/errors" || differ=$((differ + 1))
        n=$(diff "$expected" "$work/answers" | grep -c '^[<>]' || true)
        differ=$((differ + n))
        [ ! -s "$work/errors" ] || { differ=$((differ + 1)); head -5 "$work/errors"; }
        scripts=$((scripts + 1))
        calls=$((calls + $(wc -l <"$expected")))
    done
    echo "$name: $scripts scripts, $calls calls, $differ differences"
    wrong=$((wrong + differ))
}

compare "halving" -O2
compare "scan" -O2 -DSCAN
compare "halving, sanitized" -g -O1 -fsanitize=address,undefined -fno-sanitize-recover=all
compare "scan, sanitized" -g -O1 -DSCAN -fsanitize=address,undefined -fno-sanitize-recover=all
[ "$calls" -gt 0 ] || { echo "plain: no scripts in $vectors"; exit 1; }
echo "plain: $wrong differences"
[ "$wrong" -eq 0 ]
