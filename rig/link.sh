# shellcheck shell=sh disable=SC2034,SC2154
# Sourced by ./bench, the tests and the scripts of this folder: makes a program of a C file and the archive, and runs it.
# POSIX sh. The script that sources it first sets top, the top of the repository:
#
#     . "$top/tools/made.sh"
#     . "$top/rig/link.sh"
#     kep_ready || exit 1               the archive is then $top/$made_file
#     kep_link OUT SRC.c ARCHIVE || exit 1
#     kep_run "$(kep_before)" OUT args..
#
# There are two roads. The machine's own: its C compiler links with the archive for this machine, and the program runs as it is. That
# archive is made by rt on x86-64, and by rig/native-archive for aarch64. The kit's, on x86-64 where there is no C compiler: its clang
# compiles, its rattle-link links, and its loader and C library run the program. Such a machine may have no C headers, so the few
# declarations needed stand in include/.
#
# Where KEP_KIT_ONLY is set and not empty, the kit's road is taken in any case. Another machine's own road can be tried on x86-64, where
# alone the kit runs, by naming the machine, its compiler and its emulator, as for rig/build and rig/compare:
#
#     KEP_MACHINE=aarch64 KEP_CC=aarch64-linux-gnu-gcc KEP_EMULATOR='qemu-aarch64 -L /usr/aarch64-linux-gnu' rig/build

kep_host=$(uname -m)
kep_machine=${KEP_MACHINE:-$kep_host}

# Chooses the road: sets kep_cc to the machine's own C compiler, or to nothing if the kit's road is taken, and kep_made to the archive
# that goes with it.
kep_choose() {
    kep_cc='' kep_made=archive
    [ -z "${KEP_KIT_ONLY:-}" ] || return 0
    for kep_word in ${KEP_CC:-gcc cc clang}; do
        if echo '#include <stdio.h>' | "$kep_word" -fsyntax-only -x c - >/dev/null 2>&1; then
            kep_cc=$kep_word
            break
        fi
    done
    case $kep_machine in
    x86_64) ;;
    aarch64) [ -z "$kep_cc" ] || kep_made=native ;;
    *) kep_cc='' ;;
    esac
}

# Chooses the road, and sees that its archive is made.
kep_ready() {
    kep_choose
    made "$kep_made"
}

# Sets kep_home to the kit and kep_tools to the tools in it.
kep_find_kit() {
    if ! kep_word=$(rt doc 2>/dev/null); then
        made_say "no working rt on the path, so the kit cannot be found"
        return 1
    fi
    kep_home=$(dirname -- "$kep_word")
    kep_tools=$kep_home/toolchain
    if [ "$kep_host" != x86_64 ] || [ ! -x "$kep_home/bin/rattle-link" ] || [ ! -x "$kep_tools/bin/clang" ]; then
        made_say "the kit at $kep_home has no clang and rattle-link for this machine, $kep_host"
        return 1
    fi
}

# Compiles SRC.c, links it with ARCHIVE and writes the program to OUT.
kep_link() { # OUT SRC.c ARCHIVE
    if [ ! -f "$3" ]; then
        made_say "there is no archive at $3"
        return 1
    fi
    if [ -n "$kep_cc" ]; then
        "$kep_cc" -std=c11 -O2 -Wall -Wextra -I"$top/rig" -o "$1" "$2" "$3"
        return
    fi
    kep_find_kit || return 1
    "$kep_tools/bin/clang" --target=x86_64-unknown-linux-gnu -fPIE -std=c11 -O2 -Wall -Wextra \
        -nostdinc -isystem "$top/rig/include" -I"$top/rig" -c -o "$1.o" "$2" || return 1
    "$kep_home/bin/rattle-link" --target x86_64-unknown-linux-gnu --toolchain "$kep_tools" \
        -o "$1" "$1.o" "$3" 2>"$1.said" || { cat "$1.said" >&2; return 1; }
    rm -f "$1.o" "$1.said"
}

# Prints the words, one to a line, that stand before a program of kep_link's to run it.
kep_before() {
    if [ -n "$kep_cc" ]; then
        # shellcheck disable=SC2086
        [ -z "${KEP_EMULATOR:-}" ] || printf '%s\n' $KEP_EMULATOR
    else
        kep_find_kit || return 1
        printf '%s\n' "$kep_tools/lib/ld-linux-x86-64.so.2" --library-path "$kep_tools/lib"
    fi
}

# Runs a program behind the words that stand before it. No variable of the emulator's is left to change what it does.
kep_run() { # WORDS PROG args..
    (
        for kep_word in $(env | sed -n 's/^\(QEMU_[A-Za-z0-9_]*\)=.*/\1/p'); do unset "$kep_word"; done
        kep_words=$1
        shift
        IFS='
'
        set -f
        # shellcheck disable=SC2086
        exec $kep_words "$@"
    )
}
