#!/usr/bin/env bash
# players.sh PROGRAM: a live ladder of two, from one encoder, with its packager killed and resumed three times. ffmpeg, mpv, GStreamer's
# hlsdemux2 and streamlink play it over HTTP from the first playlist on. Each has to show every frame that was listed, once, in order,
# and tell no error; mpv alone may drop frames in front of a jump in time, where it resets its clock. PLAYERS names fewer of them. The last line says what was seen.
set -u
program=$(realpath "$1")
here=$(cd "$(dirname "$0")" && pwd)
players_of_all='ffmpeg mpv streamlink gstreamer'
# shellcheck source-path=SCRIPTDIR source=on_air.sh
. "$here/on_air.sh"
trap finish EXIT

# lasts SEGMENTS: until so many more of both renditions are listed.
lasts() {
    local name
    for name in hd sd; do
        waits 300 is_past $name $(($(last_of $name) + $1)) || fail "$name stands still"
    done
}

installs_players
makes_channel
goes_on_air "$samples/channel" "$work/channel.conf"
starts_players
for turn in 1 2 3; do
    waits 300 has_breaks hd $((turn - 1)) || fail 'hd does not go on'
    waits 300 has_breaks sd $((turn - 1)) || fail 'sd does not go on'
    lasts 3
    sleep 0.$((RANDOM % 10))
    play_on "restart $turn"
    sends KILL packager || fail 'no packager to kill'
done
waits 300 has_breaks hd 3 || fail 'hd does not go on'
waits 300 has_breaks sd 3 || fail 'sd does not go on'
lasts 1
reach 300
end_players 0
breaks=$(breaks_of hd)
[ "$breaks" -eq 3 ] || fail "$breaks discontinuities"
for player in "${players[@]}"; do
    grep -q "^$player .* discontinuities 3$" "$work/followed" || fail "$(tr '\n' ';' <"$work/followed")"
done
tell_no_errors
! grep -E '^tshls: ' "$work/packager.log" || fail 'the packager told a fault'
told "$work/followed"
