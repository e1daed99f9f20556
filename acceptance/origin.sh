#!/usr/bin/env bash
# origin.sh PROGRAM: a channel as docs/OPERATING.md has it, with the files of samples/origin, run by systemd from their unit files: an
# encoder into FIFOs, the packager, nginx, and what reads over HTTP from the first playlist on: a strict client, ffmpeg, mpv, GStreamer,
# streamlink and Chromium.
# Meanwhile the packager is killed, its input falls silent and comes back, the encoder is killed, and a rendition is added. Each player
# has to go on over all of it. REHEARSAL_SECONDS says for how long at the least, 60 where it isn't set; PLAYERS names fewer players. The
# last line says what was seen.
set -u
program=$(realpath "$1")
here=$(cd "$(dirname "$0")" && pwd)
seconds=${REHEARSAL_SECONDS:-60}
# shellcheck source-path=SCRIPTDIR source=on_air.sh
. "$here/on_air.sh"
trap finish EXIT

# at PART BREAKS WHAT: when this part of the time, in hundredths, is over, and both renditions have gone on behind so many discontinuities.
at() {
    local name until=$((begin + seconds * $1 / 100))
    for name in hd sd; do
        waits 300 has_breaks $name "$2" || fail "$name has no discontinuity $2 before $3"
        waits 300 is_past $name $(($(last_of $name) + 2)) || fail "$name stands still before $3"
    done
    [ $SECONDS -ge $until ] || sleep $((until - SECONDS))
    play_on "$3"
}

installs_players
makes_channel
if starts_station; then
    goes_on_air_at_the_station
else
    goes_on_air "$samples/channel" "$work/channel.conf"
fi
starts_players
begin=$SECONDS

at 20 0 'the packager is killed'
sends KILL packager || fail 'no packager to kill'
at 40 1 'the encoder falls silent'
sends STOP encoder || fail 'no encoder to stop'
sleep 4
sends CONT encoder || fail 'no encoder to go on'
at 60 1 'the encoder is killed'
sends KILL encoder || fail 'no encoder to kill'
at 80 2 'a rendition is added'
python3 - "$work/channel.conf" <<'PY'
import sys
path = sys.argv[1]
text = open(path).read()
entry = "    low:avc1.64001e,mp4a.40.2:80x46:@keys/low.0.key:in/low.ts\n"
output = '    -map 0:v -map 1:a -s 80x46 -b:v 80k "${each[@]}" in/low.ts\n'
end = text.index("\n)", text.index("renditions=(")) + 1
text = text[:end] + entry + text[end:]
end = text.index("\n)", text.index("encoder=(")) + 1
open(path, "w").write(text[:end] + output + text[end:])
PY
if [ -n "$station" ]; then
    settles
    in_station systemctl restart "${unit_of[inputs]}" || fail 'the inputs are not held again'
else
    "$samples/make_folder" "$work/channel.conf" || fail 'the folder is not made again'
    starts inputs "$samples/inputs" "$work/channel.conf"
fi
sends KILL packager || fail 'no packager to kill'
sends KILL encoder || fail 'no encoder to kill'

has_low() { [ -e "$folder/hls/low.m3u8" ] && is_past low 1; }
waits 300 has_low || fail 'the rendition that was added does not come'
at 100 3 'the end'
reach 300
# next to a discontinuity a frame may be damaged, since the encoder was killed in the middle of one
end_players 3
tell_no_errors
while read -r name segments breaks; do
    case $name in
    low) [ "$segments" -ge 2 ] ;;
    *) [ "$segments" -ge 8 ] && [ "$breaks" -ge 3 ] ;;
    esac || fail "$name has $segments segments and $breaks discontinuities"
done <"$work/client.log"
grep -q '^low ' "$work/client.log" || fail 'the rendition that was added was not seen'
! grep -E '^tshls: ' "$work/packager.log" || fail 'the packager told a fault'
grep -q '^tshls_segments_total{rendition="low"} [1-9]' "$folder/page/channel.prom" || fail 'the metrics do not tell the new rendition'
# the folder is bounded: a window and what is kept behind it
[ "$(find "$folder/hls" -name 'sd.*.ts' | wc -l)" -le 60 ] || fail 'segments pile up'
# what was killed twice was started again twice
[ -z "$station" ] || [ "$(restarts packager) $(restarts encoder)" = '2 2' ] || fail "systemd restarted them $(restarts packager) and $(restarts encoder) times"
told "$work/client.log" "$work/followed"
