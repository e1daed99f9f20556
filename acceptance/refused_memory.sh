# What takes memory where it is refused: the program of crates/fixture_refused_memory asks for each thing a few times, and again for
# what was refused.
# shellcheck shell=bash disable=SC2154

asks=$here/../crates/fixture_refused_memory/out/fixture_refused_memory

# A reader grows its packets twice, a window takes room for four rows at the first, and each growth of a cutter is refused
# once, which has ended then. A collector takes one allocation of a plan and none of a piece, a queue three of a plan, and a
# flow those of both. A board takes one for each snapshot.
check_refused_memory() {
    check 'ts_packet, cutter, media_playlist: what was refused for want of memory is taken again, and a cutter has ended' \
        takes_again stream 's/again/at once/; s/refused, then ended/two plans/' 'again\|ended' '25 cutter 2 reader 1 window'
    check 'flow_core: a plan refused for want of memory leaves all as it was, and is taken again' \
        takes_again flow 's/again/at once/' again '1 expect 4 flow 3 queue'
    check 'live_board: a snapshot refused for want of memory leaves what is shown, and is shown again' \
        takes_again board 's/again/at once/' again '3 board'
    check 'work_desk: segments refused for want of memory are told once each, and all others are sealed' seals_the_others
}

# takes_again WHAT REWORD WORD AGAIN: one allocation of a run is refused, the first, then the second, up to the last. Each run
# prints what one with all memory prints, once the script REWORD has taken the refusals out of it, whose lines have the WORD.
# AGAIN counts them by what they are of, over all runs.
takes_again() {
    local what=$1 reword=$2 word=$3 wanted=$4 number again
    cc -shared -fPIC -o "$work/refuse_memory.so" "$here/refuse_memory.c" -ldl || return
    "$asks" "$what" >"$work/whole" && [ -s "$work/whole" ] || { echo 'nothing was asked'; return 1; }
    ! grep "$word" "$work/whole" || return
    : >"$work/again"
    for ((number = 1; number <= 400; number++)); do
        rm -f "$work/was_refused"
        timeout 120 env REFUSED="$number" MARK="$work/was_refused" LD_PRELOAD="$work/refuse_memory.so" \
            "$asks" "$what" >"$work/out" 2>&1 || return
        if ! sed "$reword" "$work/out" | cmp -s - "$work/whole"; then
            echo "at allocation $number: $(cat "$work/out")"
            return 1
        fi
        grep "$word" "$work/out" >>"$work/again"
        [ -e "$work/was_refused" ] || break
    done
    again=$(cut -d: -f1 "$work/again" | sort | uniq -c | tr -s ' \n' ' ')
    echo "$number runs, again:$again"
    [ ! -e "$work/was_refused" ] && [ "$again" = " $wanted " ]
}

# Two workers seal. A segment has four packets, and 16 bytes of padding; of 1,600 in all half are refused.
seals_the_others() {
    cc -shared -fPIC -o "$work/refuse_memory.so" "$here/refuse_memory.c" -ldl || return
    timeout 120 env LARGE=768 MARK="$work/was_refused" LD_PRELOAD="$work/refuse_memory.so" \
        "$asks" desk >"$work/out" 2>&1 || return
    is_line 'standard output' "$work/out" 'desk: 800 sealed, 800 refused'
}
