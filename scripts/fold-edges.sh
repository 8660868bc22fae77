#!/usr/bin/env bash
# Tries the fold program at the edges of its input, and where it cannot read or print: what stands on standard output and
# standard error afterwards, to the byte, and the exit status. The first that is another than expected ends it. CC names the C
# compiler.
set -euo pipefail
cd "$(dirname "$0")/.."

mkdir -p target
(cd crates/fold && rt run) </dev/null >target/fold-edges.log 2>&1 || { cat target/fold-edges.log; exit 1; }
fold=$PWD/crates/fold/out/fold
export LC_ALL=C
scratch=$(mktemp -d)
trap 'rm -rf "$scratch"' EXIT
out=$scratch/out err=$scratch/err
cases=0

# NAME STATUS OUTPUT ERROR: what a call left in $status, $out and $err. The texts are printf's, with \n for an end of line.
expect() {
    cases=$((cases + 1))
    # shellcheck disable=SC2059
    if [ "$status" != "$2" ] || ! printf "$3" | cmp -s - "$out" || ! printf "$4" | cmp -s - "$err"; then
        printf 'difference: %s\nstatus %s, expected %s\n' "$1" "$status" "$2"
        head -c 400 "$out" "$err"
        exit 1
    fi
    printf 'as it should be: %s\n' "$1"
}

call() {
    status=0
    "$fold" >"$out" 2>"$err" || status=$?
}

# A call whose standard output is a pipe that nobody reads: the reader is gone before the program gets its run.
call_unread() {
    : >"$out"
    { status=0; "$fold" <"$scratch/gate" 2>"$err" || status=$?; echo "$status" >"$scratch/status"; } | true &
    sleep 0.5
    cat "$scratch/aaa" >"$scratch/gate"
    wait $! || true
    status=$(cat "$scratch/status")
}

# That many steps of label 01.
steps() { printf '\x10\x01%.0s' $(seq "$1"); }

three='nodes 3\ncost 2\nfold 2000030001100121\n'
mkfifo "$scratch/gate"

steps 3 >"$scratch/aaa"
call <"$scratch/aaa"
expect "a run" 0 "$three" ""
call < <(printf '\x10\x01\x10'; sleep 0.2; printf '\x01'; sleep 0.2; printf '\x10\x01')
expect "a run in three pieces through a pipe" 0 "$three" ""
call </dev/null
expect "the empty run" 0 'nodes 0\ncost 0\nfold -\n' ""
call < <(printf '\x13')
expect "a refused run" 0 'refused 1 at 0\n' ""
call < <(steps 100)
expect "100 nodes, the most that there is work for" 0 'nodes 100\ncost 2\nfold 2000640001100121\n' ""
call < <(steps 101)
expect "101 nodes" 0 'refused 13 at 0\n' ""
call < <(steps 2048)
expect "4,096 bytes, the most that are read" 0 'refused 10 at 2048\n' ""
steps 20000 >"$scratch/long"
call <"$scratch/long"
expect "40,000 bytes" 0 'refused 10 at 2048\n' ""

call <&-
expect "a closed standard input" 0 "" 'fold: standard input: Bad file descriptor\n'
call <"$scratch"
expect "a folder as standard input" 0 "" 'fold: standard input: Is a directory\n'
exec 3>"$scratch/written"
call <&3
expect "a standard input that is open for writing alone" 0 "" 'fold: standard input: Bad file descriptor\n'
exec 3>&-
"${CC:-cc}" -std=c11 -Wall -Wextra -Werror -shared -fPIC tests/c/failing_read.c -o "$scratch/failing_read.so"
LD_PRELOAD=$scratch/failing_read.so call </dev/null
expect "a read that fails after three bytes" 0 "" 'fold: standard input: Input/output error\n'

: >"$out"
status=0
"$fold" <"$scratch/aaa" >&- 2>"$err" || status=$?
expect "a closed standard output" 0 "" 'fold: standard output: Bad file descriptor\n'
status=0
"$fold" <"$scratch/aaa" >/dev/full 2>"$err" || status=$?
expect "a full standard output" 0 "" 'fold: standard output: No space left on device\n'
call_unread
expect "a pipe that nobody reads" 0 "" 'fold: standard output: Broken pipe\n'
trap '' PIPE
call_unread
expect "the same with SIGPIPE ignored before" 0 "" 'fold: standard output: Broken pipe\n'
: >"$err"
status=0
"$fold" <&- >"$out" 2>&- || status=$?
expect "a closed standard input and error" 0 "" ""

echo "the fold program's edges: $cases cases, all as they should be"
