# The checks of random ladders: one, pack and check on each, against the rules as they are written.
# shellcheck shell=bash disable=SC2154

check_fuzz() {
    check 'fuzz: 300 random ladders' plays_random_ladders 300
    check 'fuzz: each answer came up, and most ladders were cut' gave_each_answer
    check 'fuzz: 300 random ladders, whose writers pause' plays_random_ladders 300 1001 pauses
    check 'fuzz: 300 damaged inputs of each kind that is read' takes_hostile_input 300
}

plays_random_ladders() {
    python3 "$here/fuzz.py" "$program" "$@" >"$work/fuzz" 2>&1 || { head -3 "$work/fuzz"; tail -1 "$work/fuzz"; return 1; }
}

takes_hostile_input() {
    python3 "$here/hostile.py" "$program" "$@" >"$work/hostile" 2>&1 || { head -3 "$work/hostile"; return 1; }
}

# What a run of the fuzzer has to come by, so that it isn't one of empty streams.
gave_each_answer() {
    local answer cut
    for answer in {one,pack}\ {none,NoProgram,NoStart,LongSegment,BigSegment,Settings,ZeroPeriod,BadVector} one\ {BadKey,BadSize} \
        pack\ {Read,Unread,BadEntry,Outlet} check\ {none,Missing,Closed,NoHead,NotProfile,Unread}; do
        grep -q "$answer [1-9]" "$work/fuzz" || { echo "no $answer"; return 1; }
    done
    cut=$(sed -nE 's/.* seeds, ([0-9]+) of two segments or more, .*/\1/p' "$work/fuzz")
    [ "$cut" -ge 150 ] || { echo "$cut ladders of two segments or more"; return 1; }
}
