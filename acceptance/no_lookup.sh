# The rounds of the cipher as they were built: nothing is looked up at a place that a byte of a key or a text tells.
# shellcheck shell=bash disable=SC2154

check_no_lookup() {
    local loops
    check 'objdump is there' command -v objdump
    objdump -d --no-show-raw-insn "$program" | rounds_of >"$work/rounds"
    loops=$(grep -c '^loop ' "$work/rounds" || true)
    check "no place told by a byte in the $loops loops of shuffles of $(functions_of)" looks_nothing_up "$loops"
}

# functions_of: what the loops stand in.
functions_of() {
    sed -n 's/^loop //p' "$work/rounds" | sort -u | paste -sd ' ' -
}

# looks_nothing_up LOOPS: there are loops for one text, two, four and for opening, and nothing was found in them.
looks_nothing_up() {
    [ "$1" -ge 4 ] || { echo "only $1 loops of shuffles"; return 1; }
    ! grep '^at ' "$work/rounds"
}

# rounds_of: a line for each loop that shuffles at least 13 times, as a round does, and of which that is a fifth; and one for
# each of its instructions that brings a byte of a vector out of it, takes one byte, or reads with an index into no vector.
rounds_of() {
    awk '
        function is_told(text) {
            if (text ~ /gather|^v?pextr|^v?pmovmskb|^v?movmskp|^movz/) return 1
            if (text ~ /^v?mov[dq] +%[xyz]mm[0-9]+,%[er]/) return 1
            return text ~ /\((%[a-z0-9]+)?,%/ && text !~ /%[xyz]mm/ && text !~ /^(lea|nop|cs nop|data16)/
        }
        function look(from, to,    i, shuffles) {
            for (i = from; i <= to; i++) if (line[i] ~ /^v?pshufb/) shuffles++
            if (shuffles < 13 || shuffles * 5 < to - from + 1) return
            print "loop " name
            for (i = from; i <= to; i++) if (is_told(line[i])) print "at " name ": " line[i]
        }
        /^[0-9a-f]+ <.*>:$/ { name = $2; gsub(/[<>:]+$|^</, "", name); count = 0; split("", at); next }
        /^ *[0-9a-f]+:/ {
            place = $1; sub(/:/, "", place); sub(/^ *[0-9a-f]+:[ \t]*/, "")
            line[++count] = $0; at[place] = count
            if ($1 ~ /^j/ && $2 in at) look(at[$2], count)
        }
    '
}
