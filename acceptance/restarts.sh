# The checks of a channel's life: runs that go on where an earlier one was killed, and segments that go.
# shellcheck shell=bash disable=SC2154

check_restarts() {
    [ -e "$work/stop_at_call.so" ] || cc -Wall -shared -fPIC -o "$work/stop_at_call.so" "$here/stop_at_call.c" -ldl || return
    cc -Wall -shared -fPIC -o "$work/log_moves.so" "$here/log_moves.c" || return
    check 'pack: 300 random ladders, killed and resumed up to ten times' restarts_random_ladders "${RESTARTS:-300}"
    check 'pack: each kind of end of a chain of runs came up' ended_in_each_way
    check 'pack: --resume with nothing there is a first run' resumes_nothing
    check 'pack: a channel that does not go on is told by name, and nothing is changed' tells_each_refusal
    check 'pack: a rendition that is new begins behind a discontinuity' adds_a_rendition
    check 'pack: a rendition that gave nothing in one run goes on in the next' goes_on_behind_a_fault
    check 'pack: a fault of a run that goes on names the number that players see' names_seen_number
    check 'pack: segments go by the rule, over four runs' removes_by_the_rule "${REMOVAL_HOURS:-1}"
    check 'pack: of an event nothing goes' keeps_an_event
    check 'pack: a channel lives for days' lives_for "${DAYS:-3}"
}

# lives_for DAYS: in a folder in memory, if there is one, since on a disk each playlist costs a rename.
lives_for() {
    local folder status
    folder=$(mktemp -d -p /dev/shm 2>"$work/mktemp" || mktemp -d -p "$work") || return
    python3 "$here/month.py" "$program" "$folder" "$1"
    status=$?
    rm -rf "$folder"
    return $status
}

restarts_random_ladders() {
    python3 "$here/restarts.py" "$program" "$work/stop_at_call.so" "$1" >"$work/restarts" 2>&1 || { head -3 "$work/restarts"; tail -1 "$work/restarts"; return 1; }
}

ended_in_each_way() {
    local way
    for way in Ended Uneven anew ended killed; do
        grep -qE "$way [1-9]" "$work/restarts" || { echo "no $way"; return 1; }
    done
}

# open_stream FRAMES [BEGIN]: a stream whose last segment would be too long, so that its playlists don't end.
open_stream() {
    python3 -c '
import sys
sys.path.insert(0, sys.argv[1])
from removals import cut_off
sys.stdout.buffer.write(cut_off(int(sys.argv[2]), int(sys.argv[3])))' "$here" "$1" "${2:-0}"
}

# goes_on WORDS..: the stream is packed on, until its last segment would be too long.
goes_on() {
    ends 1 pack --out "$work/channel" --target 6 --resume "$@" && grep -qE '^tshls: LongSegment 0 [0-9]+$' "$work/err" || { cat "$work/err"; return 1; }
}

begins_channel() {
    rm -rf "$work/channel" && mkdir "$work/channel" && open_stream 31 >"$work/open.ts" && goes_on "$@" "$ladder_of_one:$work/open.ts"
}

resumes_nothing() {
    packs_into "$work/ladder" "$ladder_of_one:$work/worked/standard.ts" && rm -rf "$work/channel" && mkdir "$work/channel" &&
        writes pack --out "$work/channel" --resume "$ladder_of_one:$work/worked/standard.ts" && is_same_folder "$work/channel" "$work/ladder"
}

# is_refused NAME WORDS..: with this fault, and the folder stays as it is.
is_refused() {
    local name=$1
    shift
    rm -rf "$work/kept" && cp -a "$work/channel" "$work/kept" || return
    refuses 1 "$name" pack --out "$work/channel" --target 6 --resume "$@" || { echo "in place of $name"; return 1; }
    is_same_folder "$work/channel" "$work/kept"
}

tells_each_refusal() {
    local entry=$ladder_of_one:$work/open.ts other="v:avc1.4d401e:640x360:$second_key:$work/open.ts" last
    begins_channel || return
    is_refused 'OtherKeys 0 0' "$other" && is_refused 'OtherSalt 0' --salt "$key" "$entry" && is_refused 'OtherKind 0' --event "$entry" || return
    rm -rf "$work/kept" && cp -a "$work/channel" "$work/kept" || return
    refuses 1 'OtherTarget 0' pack --out "$work/channel" --target 5 --resume "$entry" && is_same_folder "$work/channel" "$work/kept" || return
    last=$(sed -nE 's/^v\.([0-9]+)\.ts$/\1/p' "$work/channel/v.m3u8" | tail -1)
    cp "$work/channel/v.$last.ts" "$work/channel/v.$((last + 3)).ts" && is_refused "Ahead 0 $((last + 3))" "$entry" || return
    rm "$work/channel/v.$((last + 3)).ts"
    mv "$work/channel/v.$last.ts" "$work/away.ts" && is_refused "Lost 0 $last" "$entry" && mv "$work/away.ts" "$work/channel/v.$last.ts" || return
    cp "$work/channel/v.m3u8" "$work/away.m3u8" && sed -i 's/^#EXTINF:6/#EXTINF:5/' "$work/channel/v.m3u8" && is_refused 'Foreign 0' "$entry" || return
    cp "$work/away.m3u8" "$work/channel/v.m3u8" && echo '#EXT-X-ENDLIST' >>"$work/channel/v.m3u8" || return
    is_refused 'Ended 0' "$entry" || return
    cp "$work/away.m3u8" "$work/channel/v.m3u8" && mv "$work/channel/v.iframes.m3u8" "$work/away.m3u8" && is_refused 'Foreign 0' "$entry" || return
    mv "$work/away.m3u8" "$work/channel/v.iframes.m3u8"
    refuses 1 Unread pack --out "$work/absent" --target 6 --resume "$entry" && goes_on "$entry"
}

adds_a_rendition() {
    local second="w:avc1.4d401e:320x180:$second_key:$work/open.ts"
    begins_channel --window 40 && goes_on --window 40 "$ladder_of_one:$work/open.ts" "$second" || return
    grep -q '^#EXT-X-DISCONTINUITY-SEQUENCE:1$' "$work/channel/w.m3u8" || { head -5 "$work/channel/w.m3u8"; return 1; }
    grep -q '^#EXT-X-DISCONTINUITY$' "$work/channel/v.m3u8" && ! grep -q '^#EXT-X-DISCONTINUITY$' "$work/channel/w.m3u8" || return
    writes check --keys "$key" "$work/channel/v.m3u8" && writes check --keys "$second_key" "$work/channel/w.m3u8"
}

# One rendition gives no segment in the second run, so that it has one discontinuity less; in the third one its list begins anew, and its
# first segment has the discontinuity number of the other's.
goes_on_behind_a_fault() {
    local second="w:avc1.4d401e:320x180:$second_key" last name
    begins_channel --window 40 "$second:$work/open.ts" && last=$(sed -nE 's/^w\.([0-9]+)\.ts$/\1/p' "$work/channel/w.m3u8" | tail -1) || return
    head -c 188000 /dev/zero >"$work/silent.ts"
    ends 1 pack --out "$work/channel" --target 6 --window 40 --resume "$ladder_of_one:$work/open.ts" "$second:$work/silent.ts" || return
    grep -qE '^tshls: NoProgram 1$' "$work/err" || { cat "$work/err"; return 1; }
    goes_on --window 40 "$ladder_of_one:$work/open.ts" "$second:$work/open.ts" || return
    grep -q '^#EXT-X-DISCONTINUITY-SEQUENCE:0$' "$work/channel/v.m3u8" && [ "$(grep -c '^#EXT-X-DISCONTINUITY$' "$work/channel/v.m3u8")" -eq 2 ] || return
    grep -q "^#EXT-X-MEDIA-SEQUENCE:$((last + 1))$" "$work/channel/w.m3u8" && grep -q '^#EXT-X-DISCONTINUITY-SEQUENCE:1$' "$work/channel/w.m3u8" || { head -8 "$work/channel/w.m3u8"; return 1; }
    for name in w w.iframes; do
        [ "$(grep -c '^#EXT-X-DISCONTINUITY$' "$work/channel/$name.m3u8")" -eq 1 ] || return
    done
    [ -e "$work/channel/w.$last.ts" ] && writes check --keys "$key" "$work/channel/v.m3u8" && writes check --keys "$second_key" "$work/channel/w.m3u8"
}

names_seen_number() {
    local first then
    begins_channel && first=$(cut -d' ' -f4 "$work/err") && goes_on "$ladder_of_one:$work/open.ts" && then=$(cut -d' ' -f4 "$work/err") || return
    [ "$then" -eq $((2 * first)) ] || { echo "$then behind $first"; return 1; }
}

removes_by_the_rule() {
    rm -rf "$work/removals" && mkdir "$work/removals" || return
    python3 "$here/removals.py" "$program" "$work/log_moves.so" "$work/removals" "$1" >"$work/removed" 2>&1 || { tail -1 "$work/removed"; return 1; }
}

keeps_an_event() {
    begins_channel --event && goes_on --event --remove "$ladder_of_one:$work/open.ts" || return
    [ "$(ls "$work/channel" | grep -c '\.ts$')" -eq "$(grep -c '^v\..*\.ts$' "$work/channel/v.m3u8")" ]
}
