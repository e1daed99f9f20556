# The checks of how pack ends: faults of streams, of the folder and of standard output, signals.
# shellcheck shell=bash disable=SC2154

check_pack_ends() {
    local workers
    check 'pack: a stream with a fault, the others go on' packs_ladder -- "a:c:1x1:$key:$work/worked/standard.ts" \
        "b:c:1x1:$key:$work/worked/eight_seconds.ts" "d:c:1x1:$key:$work/worked/bad_crc.ts" "e:c:1x1:$key:$work/worked/seven_segments.ts"
    check "pack: a path that can't be read, the others go on" packs_beside_a_folder
    check 'pack: seven seconds of video are lost' goes_on_behind_a_hole
    check "pack: a folder that isn't there" refuses 1 Outlet pack --out "$work/absent" "$ladder_of_one:$work/worked/standard.ts"
    check 'pack: a file in its place' refuses 1 Outlet pack --out "$here/pack.sh" "$ladder_of_one:$work/worked/standard.ts"
    check 'pack: the folder goes in mid-run' tells_a_lost_folder
    check 'pack: another folder comes in its place' tells_another_folder
    check 'pack: a full standard output' leaves_all_where_output_is_full
    check 'pack: a closed standard output' leaves_all_where_output_is_closed
    check 'pack: it ends at once when it is told to' ends_at_a_signal
    check 'pack: killed at any moment' plays_when_killed
    for workers in 1 2; do
        check "pack: each allocation refused in turn, $workers workers" packs_without_memory $workers
    done
    check "pack: an input's memory is refused, and its writer goes on" throws_away_without_memory
    if mkdir -p "$work/small" && mount -t tmpfs -o size=256k none "$work/small" 2>"$work/mounted"; then
        check 'pack: a full disk' leaves_whole_files_on_a_full_disk
        umount "$work/small"
    else
        echo "no disk can be mounted here, so none is full: $(cat "$work/mounted")"
    fi
}

packs_beside_a_folder() {
    rm -rf "$work/ladder" && mkdir "$work/ladder" || return
    ends 1 pack --out "$work/ladder" "a:c:1x1:$key:$work/worked/standard.ts" "b:c:1x1:$key:$here" "$ladder_of_one:$work/worked/standard.ts" &&
        is_line 'standard error' "$work/err" 'tshls: Read 1' && is_empty 'standard output' "$work/out" || return
    prints 'ok 2 752' check --keys "$key" "$work/ladder/a.m3u8" && prints 'ok 2 752' check --keys "$key" "$work/ladder/v.m3u8"
}

# A segment with a hole in it is too long, but for where the hole is a discontinuity.
goes_on_behind_a_hole() {
    python3 -c '
import sys
sys.path.insert(0, sys.argv[1])
from standard_stream import every, stream
times = every(18_000, 100) + every(18_000, 100, 27 * 90_000)
sys.stdout.buffer.write(stream(*(str(time) if i % 10 else time for i, time in enumerate(times))))' "$here" >"$work/hole.ts" || return
    local words=(pack --out "$work/ladder" --target 6 --segment 4 --window 40 "$ladder_of_one:$work/hole.ts")
    rm -rf "$work/ladder" && mkdir "$work/ladder" && refuses 1 'LongSegment 0 4' "${words[@]}" || return
    rm -rf "$work/ladder" && mkdir "$work/ladder" && ends 0 "${words[@]}" --gap 90000 || return
    [ "$(grep -c '^#EXT-X-DISCONTINUITY$' "$work/ladder/v.m3u8")" -eq 1 ] && writes check --keys "$key" "$work/ladder/v.m3u8"
}

# packs_from_a_pipe FOLDER: in the background, from a FIFO that is kept open at descriptor 9. The process is $packing.
packs_from_a_pipe() {
    rm -rf "$1" "$work/pipe" && mkdir "$1" && mkfifo "$work/pipe" || return
    "$program" pack --out "$1" "$ladder_of_one:$work/pipe" --batch 1 >"$work/out" 2>"$work/err" &
    packing=$!
    exec 9>"$work/pipe"
}

# feeds INPUT FILE: the first 940 bytes of the input, and more of it byte by byte until the file is there. A run gives a segment
# between two reads, so bytes have to come.
feeds() {
    head -c 940 "$1" >&9
    for ((fed = 940; fed < 1100; fed++)); do
        [ -e "$2" ] && return
        sleep 0.1
        tail -c +$((fed + 1)) "$1" | head -c 1 >&9
    done
    echo "no ${2##*/}"
    return 1
}

tells_a_lost_folder() {
    local status=0 fed
    packs_from_a_pipe "$work/lost" && feeds "$work/worked/seven_segments.ts" "$work/lost/master.m3u8" || return
    rm -rf "$work/lost"
    tail -c +$((fed + 1)) "$work/worked/seven_segments.ts" >&9
    exec 9>&-
    wait "$packing" || status=$?
    [ $status -eq 1 ] && is_line 'standard error' "$work/err" 'tshls: Outlet'
}

# Another folder in its place isn't locked, and isn't written to.
tells_another_folder() {
    local status=0 fed
    packs_from_a_pipe "$work/lost" && feeds "$work/worked/seven_segments.ts" "$work/lost/master.m3u8" || return
    rm -rf "$work/away" && mv "$work/lost" "$work/away" && mkdir "$work/lost" || return
    tail -c +$((fed + 1)) "$work/worked/seven_segments.ts" >&9
    exec 9>&-
    wait "$packing" || status=$?
    [ $status -eq 1 ] && is_line 'standard error' "$work/err" 'tshls: Outlet' && [ -z "$(ls -A "$work/lost")" ]
}

ends_at_a_signal() {
    local status=0 fed
    packs_from_a_pipe "$work/ladder" && feeds "$work/worked/standard.ts" "$work/ladder/master.m3u8" || return
    kill "$packing"
    timeout 10 tail --pid="$packing" -f /dev/null || { kill -9 "$packing"; echo 'it goes on'; return 1; }
    wait "$packing" || status=$?
    exec 9>&-
    [ $status -eq 143 ] || { echo "status $status"; return 1; }
    prints 'ok 1 376' check --keys "$key" "$work/ladder/v.m3u8"
}

leaves_all_where_output_is_full() {
    local status=0
    rm -rf "$work/ladder" && mkdir "$work/ladder" || return
    timeout 120 "$program" pack --out "$work/ladder" "$ladder_of_one:$work/worked/standard.ts" >/dev/full 2>"$work/err" || status=$?
    [ $status -eq 1 ] && is_line 'standard error' "$work/err" 'tshls: Unwritten' &&
        prints 'ok 2 752' check --keys "$key" "$work/ladder/v.m3u8"
}

leaves_all_where_output_is_closed() {
    rm -rf "$work/ladder" && mkdir "$work/ladder" || return
    { sleep 0.3; timeout 120 "$program" pack --out "$work/ladder" "$ladder_of_one:$work/worked/standard.ts" 2>"$work/err"; } | true
    unwritten=Unwritten is_unwritten_or_signalled "${PIPESTATUS[0]}" && prints 'ok 2 752' check --keys "$key" "$work/ladder/v.m3u8"
}

# What lies in the folder at any moment is read back: the playlist is whole, and each segment that it lists opens.
plays_when_killed() {
    local moment ended=0
    for ((moment = 0; moment < 100; moment++)); do
        cat "$work/real/h264.ts"
    done >"$work/long.ts"
    for ((moment = 0; moment < 50; moment++)); do
        rm -rf "$work/ladder" && mkdir "$work/ladder"
        "$program" pack --out "$work/ladder" --target 2 --gap 90000 "v:c:1x1:$key:$work/long.ts" >"$work/out" 2>"$work/err" &
        packing=$!
        sleep "0.$(printf %03d $((moment * 4)))"
        kill -9 "$packing" 2>"$work/told" || ended=$((ended + 1))
        wait "$packing" 2>"$work/told"
        [ ! -e "$work/ladder/v.m3u8" ] || writes check --keys "$key" "$work/ladder/v.m3u8" || { echo "at moment $moment"; return 1; }
    done
    rm "$work/long.ts"
    [ $ended -lt 50 ] || { echo 'no run was killed before its end'; return 1; }
}

leaves_whole_files_on_a_full_disk() {
    ends 1 pack --out "$work/small" --target 2 --event "v:c:1x1:$key:$work/real/looped.ts" &&
        is_line 'standard error' "$work/err" 'tshls: Outlet' && writes check --keys "$key" "$work/small/v.m3u8"
}

# packs_without_memory WORKERS: with one allocation refused the program tells want of memory, a failed put or a failed read, or
# it packs both renditions, each under its own key; what lies in the folder is read back. Threads ask for more in one run than in
# another: the last allocation is behind when five numbers in turn came to none.
packs_without_memory() {
    local number status unmet=0 second=0123456789abcdeffedcba9876543210 words=(pack --workers "$1" --out "$work/ladder")
    words+=("$ladder_of_one:$work/worked/standard.ts" "w:c:1x1:$second:$work/worked/standard.ts")
    cc -shared -fPIC -o "$work/refuse_memory.so" "$here/refuse_memory.c" -ldl || return
    for ((number = 1; number <= 5000; number++)); do
        status=0
        rm -rf "$work/was_refused" "$work/ladder" && mkdir "$work/ladder"
        REFUSED=$number MARK=$work/was_refused LD_PRELOAD=$work/refuse_memory.so timeout 60 "$program" "${words[@]}" >"$work/out" 2>"$work/err" || status=$?
        case "$status $(cat "$work/err")" in
        '0 ') is_line 'standard output' "$work/out" $'v 2 9.040000 2022 1360\nw 2 9.040000 2022 1360' ;;
        '1 tshls: NoMemory' | '1 tshls: Outlet' | '1 tshls: Unread' | '1 tshls: Read 0' | '1 tshls: Read 1') is_empty 'standard output' "$work/out" ;;
        *) echo "status $status, $(cat "$work/err")"; false ;;
        esac && reads_back v "$key" && reads_back w "$second" || { echo "at allocation $number"; return 1; }
        [ -e "$work/was_refused" ] && unmet=0 && continue
        [ "$number" -gt 1 ] && [ $status -eq 0 ] || { echo "allocation $number wasn't refused, status $status"; return 1; }
        [ $((++unmet)) -lt 5 ] || return 0
    done
    echo 'more than 5,000 allocations'
    return 1
}

# reads_back NAME KEY: what a run left of a rendition.
reads_back() {
    [ ! -e "$work/ladder/$1.m3u8" ] || writes check --keys "$2" "$work/ladder/$1.m3u8"
}

# There is no memory for the first block of a FIFO: its rendition ends, and what is written into the FIFO is thrown away, so that an
# encoder which writes both goes on with the other one. Of allocations of a block or more each second one is refused.
throws_away_without_memory() {
    local status=0 tries
    cc -shared -fPIC -o "$work/refuse_memory.so" "$here/refuse_memory.c" -ldl || return
    rm -rf "$work/ladder" "$work/scarce.fifo" "$work/other.fifo" "$work/was_refused" && mkdir "$work/ladder" && mkfifo "$work/scarce.fifo" "$work/other.fifo" || return
    exec 8<>"$work/scarce.fifo"
    head -c 65536 /dev/zero >&8
    LARGE=56400 MARK=$work/was_refused LD_PRELOAD=$work/refuse_memory.so timeout 60 "$program" pack --out "$work/ladder" \
        "w:c:1x1:$key:$work/scarce.fifo" "$ladder_of_one:$work/other.fifo" >"$work/out" 2>"$work/err" 8>&- &
    packing=$!
    for ((tries = 0; tries < 100; tries++)); do
        [ ! -e "$work/was_refused" ] || break
        sleep 0.1
    done
    timeout 20 head -c 1000000 /dev/zero >&8 || { kill "$packing"; echo 'its writer is held up'; return 1; }
    cat "$work/worked/standard.ts" >"$work/other.fifo"
    wait "$packing" || status=$?
    exec 8>&-
    [ $status -eq 1 ] && is_line 'standard error' "$work/err" 'tshls: Read 0' && prints 'ok 2 752' check --keys "$key" "$work/ladder/v.m3u8"
}
