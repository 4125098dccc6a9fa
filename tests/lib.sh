# shellcheck shell=sh disable=SC2034
# Sourced by the tests of this folder. Each says one line a test, and last how many passed and failed.
# It sets top, the top of the repository, and room, a temporary folder.

top=$(dirname -- "$(dirname -- "$(readlink -f -- "$0")")")
room=$(mktemp -d)
trap 'rm -rf "$room"' EXIT
trap 'exit 1' HUP INT TERM
passed=0 failed=0

# Compares two texts.
same() { # NAME WANTED GOT
    if [ "$2" = "$3" ]; then
        printf '%s: %s ok\n' "${0##*/}" "$1"
        passed=$((passed + 1))
    else
        printf '%s: %s FAILED\n  wanted: %s\n  got:    %s\n' "${0##*/}" "$1" "$2" "$3"
        failed=$((failed + 1))
    fi
}

hex() { od -An -v -tx1 | tr -d ' \n'; }

# Writes as many zero bytes, in hex.
zeros() { # COUNT
    i=0
    while [ "$i" -lt "$1" ]; do
        printf 00
        i=$((i + 1))
    done
}

# The last line of every test.
count() {
    printf '%s passed, %s failed\n' "$passed" "$failed"
    [ "$failed" -eq 0 ]
}
