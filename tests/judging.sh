# What the tests share, which read this file: runs are held against what they are to print, what they are to say on standard error, and the
# status that they are to end with.
set -u
CDPATH=
root=$(cd -- "$(dirname -- "$0")/.." && pwd -P) || exit 2
LC_ALL=C
export LC_ALL
work=$(mktemp -d) || exit 2
trap 'rm -rf -- "$work"' EXIT
ran=0
failed=0

# expect OUT ERR: what the next run is to print, and to say, with \n for a newline
expect() {
    printf '%b' "$1" >"$work/out"
    printf '%b' "$2" >"$work/err"
}

# went NAME STATUS: judges the last run, which ended with $ended, printed $work/printed and said $work/said
went() {
    ran=$((ran + 1))
    if [ "$ended" = "$2" ] && cmp -s "$work/out" "$work/printed" && cmp -s "$work/err" "$work/said"; then return; fi
    failed=$((failed + 1))
    printf 'otherwise: %s: status %s, expected %s\n' "$1" "$ended" "$2"
    diff "$work/out" "$work/printed" | head -n 5
    diff "$work/err" "$work/said" | head -n 5
}

# verdict WHAT: the last line, and the status of the test
verdict() {
    printf '%d runs of %s, %d otherwise\n' "$ran" "$1" "$failed"
    [ "$failed" -eq 0 ]
}
