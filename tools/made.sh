# shellcheck shell=sh disable=SC2154
# Sourced by ./bench, .ci/run, the tests and the scripts of rig/: sees that what rt makes is made of the sources as they are now.
# The script that sources it first sets top, the top of the repository:
#
#     . "$top/tools/made.sh"
#     made_traps 'rm -rf "$room"'    at the end; where a signal ends the script, it ends the proving too
#     made bench || exit 3           target/bin/bench
#     made archive || exit 3         target/staticlib/librig.a
#     made native || exit 3          target/staticlib/librig-$kep_machine.a: rig/link.sh sets the machine
#     made_cargo VERB WORDS..        cargo on the model, into target/model
#
# Contents decide, and no dates: a file that was unpacked or copied may have an old one. In target/made stands a stamp of what was made:
# the sums of the sources and of itself, and the kit's name. Where the stamp does not hold, rt is asked, which proves what has changed
# and leaves what it makes in the crate's own out/, from where it is copied. Without rt, only what has its stamp is taken. What is said
# goes to standard error.

made_say() { printf '%s: %s\n' "${0##*/}" "$*" >&2 2>/dev/null || :; }

# ---- signals

made_child=''

made_traps() { # WORDS that clean up
    made_clean=$1
    trap 'eval "$made_clean" || :' EXIT
    trap 'made_die HUP' HUP
    trap 'made_die INT' INT
    trap 'made_die TERM' TERM
}

# Ends the script by the signal that it got, so that whoever called it sees that too.
made_die() { # SIGNAL
    trap - EXIT HUP INT TERM
    [ -z "$made_child" ] || kill -s TERM -- "$made_child" 2>/dev/null || :
    eval "$made_clean"
    kill -s "$1" $$
}

# Waits for a command in the background: a signal would have to wait for one in the foreground. PID with a - before it is a group,
# which a signal then ends as a whole.
made_wait() { # PID
    made_child=$1 made_status=0
    wait "${1#-}" || made_status=$?
    made_child=''
    return "$made_status"
}

# ---- what is made

# Sets made_file to where it stands.
made() { # bench | archive | native
    made_also=''
    case $1 in
    # rt runs the program that it has made, here on no input
    bench) made_file=target/bin/bench made_crate=bench made_command='rt run' made_out=out/bench ;;
    archive) made_file=target/staticlib/librig.a made_crate=rig_c made_command='rt lib' made_out=out/librig_c.a ;;
    *)
        made_file=target/staticlib/librig-$kep_machine.a made_crate=rig_c made_out=''
        made_command="../../rig/native-archive $kep_machine" made_also=rig/native-archive
        ;;
    esac
    made_stamp=$top/target/made/${made_file##*/}
    made_kit=$(rt version 2>/dev/null) || made_kit=''
    made_sources=$(made_sum_of_sources)
    if made_holds; then
        [ -n "$made_kit" ] || made_say "there is no working rt on the path; by the sums, $made_file is made of these sources"
        return 0
    fi
    if [ -z "$made_kit" ]; then
        made_say "there is no working rt on the path to make $made_file, which is not there or not known to be of these sources"
        return 1
    fi
    if ! { mkdir -p "$top/target/made" && true >>"$top/target/made/lock"; } 2>/dev/null; then
        made_say "$made_file is to be made, and $top/target cannot be written"
        return 1
    fi
    # one at a time, since two rt in one repository write to the same files
    exec 9>>"$top/target/made/lock"
    if command -v flock >/dev/null 2>&1 && ! flock -n 9; then
        made_say "waiting for another that is proving here"
        flock 9 &
        made_wait $!
    fi
    made_status=0
    made_holds || made_ask || made_status=1
    exec 9>&-
    return "$made_status"
}

made_sum_of_sources() { made_sum_of crates.txt crates ${made_also:+"$made_also"}; }

# Of a crate, all but must-fail/, and out/, where rt keeps what it has made.
made_sum_of() { # PATHS
    (cd "$top" && find "$@" -name must-fail -prune -o -path 'crates/*/out' ! -path 'crates/*/*/out' -prune -o -type f -exec sha256sum {} +) |
        LC_ALL=C sort | sha256sum | cut -d ' ' -f 1
}

made_sum_of_file() { sha256sum <"$top/$made_file" | cut -d ' ' -f 1; }

# Whether the stamp says of this file that it is made of these sources, and by this kit if there is one.
made_holds() {
    [ -f "$top/$made_file" ] && { IFS= read -r made_sums && IFS= read -r made_old_kit; } 2>/dev/null <"$made_stamp" &&
        [ "$made_sums" = "$made_sources $(made_sum_of_file)" ] && [ "${made_kit:-$made_old_kit}" = "$made_old_kit" ]
}

# ---- asking rt

made_ask() {
    made_log=$made_stamp.log
    made_say "asking rt for $made_file; it proves what has changed, which takes some minutes the first time"
    true >"$made_log" || return 1
    made_leader=$(command -v setsid) || made_leader=''
    # shellcheck disable=SC2086
    (cd "$top/crates/$made_crate" && exec $made_leader $made_command) </dev/null >"$made_log" 2>&1 9>&- &
    made_rt=$!
    made_show 9>&- &
    made_shower=$!
    made_rt_status=0
    made_wait "${made_leader:+-}$made_rt" || made_rt_status=$?
    wait "$made_shower" || :
    if [ "$made_rt_status" -ne 0 ]; then
        made_failures <"$made_log" >&2
        made_say "$made_command ended with status $made_rt_status"
    elif [ -n "$made_out" ] && ! made_take; then
        made_say "$made_command ended well, and crates/$made_crate/$made_out cannot be copied to $made_file"
    elif [ ! -f "$top/$made_file" ]; then
        made_say "$made_command ended well, and $made_file is not there"
    elif [ "$made_sources" != "$(made_sum_of_sources)" ]; then
        made_say "the sources changed while they were proved; start again"
    elif ! { printf '%s\n' "$made_sources $(made_sum_of_file)" "$made_kit" >"$made_stamp.new" && mv "$made_stamp.new" "$made_stamp"; }; then
        made_say "$made_stamp cannot be written"
    else
        return 0
    fi
    return 1
}

# Copies what rt made, whole or not at all.
made_take() {
    mkdir -p "$top/${made_file%/*}" && cp "$top/crates/$made_crate/$made_out" "$top/$made_file.new" && mv "$top/$made_file.new" "$top/$made_file"
} 2>/dev/null

# Of what rt said, what belongs to the crate that was not proved, which is the last one: rt begins each by a line of its own.
made_failures() {
    awk '/^rt: chose / { said = ""; next } { said = said $0 "\n" } END { printf "%s", said }'
}

# Shows how the proving goes, as long as it goes on: on a terminal by one line that moves, else by rt's own lines.
made_show() {
    # the crate and all below it, each once, in the order in which rt takes them; what else a line names is the kit's
    made_order=$(awk -v name="$made_crate" -F : '
        function take(crate,  below, k, i) {
            if (taken[crate]++) return
            k = split(deps[crate], below, " ")
            for (i = 1; i <= k; i++) if (below[i] in deps) take(below[i])
            print crate
        }
        { sub(/#.*/, "") }
        NF > 1 { sub(/[ \t].*/, "", $1); deps[$1] = $2 }
        END { take(name) }' "$top/crates.txt")
    made_told=0 made_on=1
    while [ "$made_on" -eq 1 ]; do
        kill -0 "$made_rt" 2>/dev/null || made_on=0
        if [ -t 2 ]; then made_move; else made_list; fi
        [ "$made_on" -eq 0 ] || sleep 0.3 2>/dev/null || sleep 1
    done
    [ ! -t 2 ] || printf '\r%70s\r' '' >&2
}

# The crate that rt is at is the last one that it chose to prove: those before it in the order are done, by now or by earlier runs.
made_move() {
    made_now=$(sed -n 's/^rt: chose --jobs [0-9]* for //p' "$made_log" | tail -n 1)
    printf '\r%-70.70s' "$(printf '%s\n' "$made_order" | awk -v name="$made_now" -v script="${0##*/}" '
        $0 == name { at = NR }
        END { printf "%s: proving %d of %d: %s", script, at ? at : 1, NR, at ? name : "what is below" }')" >&2
}

made_list() {
    made_lines=$(grep -c '^rt: ' "$made_log") || :
    [ "$made_lines" -eq "$made_told" ] || grep '^rt: ' "$made_log" | sed -n "$((made_told + 1)),${made_lines}p" >&2
    made_told=$made_lines
}

# ---- the model

# cargo goes by dates. So where the model's contents are others than the last time, what it remembers of them is removed.
made_cargo() { # VERB WORDS..
    made_model=$(made_sum_of rig/model)
    if ! grep -qsxF "$made_model" "$top/target/model/sum"; then
        rm -rf "$top"/target/model/release/.fingerprint/rules-* "$top"/target/model/release/.fingerprint/harness-*
        mkdir -p "$top/target/model" && printf '%s\n' "$made_model" >"$top/target/model/sum" || return 1
    fi
    made_verb=$1
    shift
    cargo "$made_verb" --quiet --release --offline --locked --manifest-path "$top/rig/model/Cargo.toml" --target-dir "$top/target/model" "$@"
}
