# Counts, for rig/bytes, what steps read and write of the net: awk [-v count=1] -f bytes.awk WINDOWS TRACE
# WINDOWS is what bytes.c prints; it says there what that is. TRACE has the loads (L), the stores (S) and what is both (M), as
# valgrind's lackey tells them: ` S ADDRESS,BYTES`. Prints a table; then the steps that write other bytes than WINDOWS promises, or
# not all of those; with count, the table alone. The exit status is 0 only if the trace is whole and no step is named.

BEGIN { FS = "[ ,]+" }

# ---- what is read

# Of an address in hex. The same addresses come up again and again.
function number(hex,    i, value) {
    if (hex in known) return known[hex]
    for (i = 1; i <= length(hex); i++) value = 16 * value + index("0123456789abcdef", substr(hex, i, 1)) - 1
    known[hex] = value
    return value
}

function take_addresses(    place) {
    split(substr($2, 3), place, "+")
    net = number(place[1])
    bytes = place[2] + 0
    mark = number(substr($4, 3))
}

# What a step itself reads is what it reads more than the empty run before it, which writes nothing.
function take_window(    i, b, place) {
    label[++windows] = $2 ", " $3 " form, k " $4 ", position " $5
    part[windows] = $6
    if ($6 == "empty") empty = windows
    else window[$2, $3, $4 + 0, $5 + 0] = windows
    if ($6 == "step") before[windows] = empty
    if ($4 + 0 > most) most = $4 + 0
    for (i = 7; i <= NF; i++) {
        split($i, place, "+")
        for (b = place[1] + 0; b < place[1] + place[2]; b++) take_byte(promised, b, windows)
    }
}

function take_byte(set, b, n) {
    set[n, b] = 1
    if (!(n in low) || b < low[n]) low[n] = b
    if (!(n in high) || b > high[n]) high[n] = b
}

function tell(amount, accesses, n, size) {
    total[amount, n] += size
    total[accesses, n]++
}

# Of an access that begins before the net or ends behind it, what is inside counts.
function take_access(    n, b, end) {
    n = (marks + 1) / 2
    b = number($3) - net
    end = b + $4
    if (b < 0) b = 0
    if (end > bytes) end = bytes
    if (b >= end) return
    seen[n] = 1
    if ($2 != "S") tell("read", "loads", n, end - b)
    if ($2 == "L") return
    tell("written", "stores", n, end - b)
    for (; b < end; b++) take_byte(stored, b, n)
}

FILENAME == ARGV[1] && $1 == "net" { take_addresses(); next }
FILENAME == ARGV[1] { take_window(); next }
$2 != "L" && number($3) == mark { marks++; next }
marks % 2 == 1 { take_access() }

# ---- what is printed

# The numbers of a line, of the steps that remove the oldest message or the last one.
function numbers(what, name, form, is_last,    k, n, text) {
    for (k = 1; k <= most; k++) {
        n = window[name, form, k, is_last ? k - 1 : 0]
        text = text sprintf("%6s", !n ? "" : total[what, n] - total[what, before[n]])
    }
    return text
}

# Where both forms come to the same, or there is only one, one line will do.
function print_numbers(title, what, name, is_last,    saved, working) {
    saved = numbers(what, name, "saved", is_last)
    working = numbers(what, name, "working", is_last)
    if (working !~ /[0-9]/) working = saved
    printf "%-32s%-8s%s%s\n", title, what, saved, saved == working ? "" : "  saved form"
    if (saved != working) printf "%-32s%-8s%s  working form\n", "", what, working
}

function print_rows(title, name, is_last) {
    if (numbers("read", name, "saved", is_last) !~ /[0-9]/) return
    print_numbers(title, "read", name, is_last)
    print_numbers("", "loads", name, is_last)
    print_numbers("", "written", name, is_last)
    print_numbers("", "stores", name, is_last)
}

function print_table(    k) {
    print "bytes of the net that one step reads and writes, and its loads and stores, with k messages in the channel"
    printf "%-40s", "k"
    for (k = 1; k <= most; k++) printf "%6d", k
    print ""
    print_rows("a request delivered", "request", 0)
    print_rows("a reply delivered, not adopted", "reply", 0)
    print_rows("a reply delivered, adopted", "adopted", 0)
    print_rows("the oldest one lost", "lost", 0)
    print_rows("the last one lost", "lost", 1)
    print_rows("the whole channel, byte by byte", "whole", 0)
}

# The bytes of a window that are in one set and not in the other, as " 380-387 390".
function differing(one, other, n,    b, first, text) {
    first = -1
    for (b = low[n]; b <= high[n] + 1; b++) {
        if (((n, b) in one) && !((n, b) in other)) {
            if (first < 0) first = b
        } else if (first >= 0) {
            text = text " " (b - 1 > first ? first "-" (b - 1) : first)
            first = -1
        }
    }
    return text
}

function hold(n,    where, beside, missing) {
    where = label[n] (part[n] == "empty" ? ", empty script" : "")
    beside = differing(stored, promised, n)
    missing = differing(promised, stored, n)
    if (beside != "" && ++complaints <= 10) print where ": written, and not promised: bytes" beside
    if (missing != "" && ++complaints <= 10) print where ": promised, and not written: bytes" missing
    return beside == "" && missing == ""
}

# A run that writes where it should write nothing is a fault of every step that it stands before.
function hold_all(    n, steps, wrong) {
    for (n = 1; n <= windows; n++) holds[n] = part[n] == "plain" || hold(n)
    for (n = 1; n <= windows; n++) if (part[n] == "step") {
        steps++
        if (!holds[n] || (before[n] && !holds[before[n]])) wrong++
    }
    if (complaints > 10) print "and " (complaints - 10) " more"
    if (steps && !wrong) print "bytes: " steps " steps, every byte that they write is promised, and every promised byte written"
    else print "bytes: " (wrong + 0) " of " (steps + 0) " steps write other bytes than promised"
    return steps && !wrong
}

function fail(what) {
    print "bytes: " what "; nothing was counted"
    exit 1
}

END {
    if (!windows || marks != 2 * windows)
        fail("the trace has " (marks + 0) " marks, and not two for each of " (windows + 0) " windows")
    for (n = 1; n <= windows; n++) if (!seen[n]) fail("the trace has no access to the net in a window: " label[n])
    print_table()
    if (!count && !hold_all()) exit 1
}
