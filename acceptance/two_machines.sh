#!/usr/bin/env bash
# two_machines.sh PROGRAM: what is true of two packagers that are fed the same bytes. Each part compares two folders byte for byte, all
# of their files. The last line says what was seen.
#   1. One reads files, by one worker; the other FIFOs, in small pieces and at another pace, by four.
#   2. Both are fed by one encoder's bytes through tee, stand still at the same byte, and are killed there.
#   3. Both go on, with what comes next, by other numbers of workers.
#   4. A third one goes on from a copy of the folder, made by samples/origin/copy_folder while its packager ran.
set -u
program=$(realpath "$1")
here=$(cd "$(dirname "$0")" && pwd)
samples=$here/../samples/origin
work=$(mktemp -d)
started=()

finish() {
    exec 2>"$work/killed"
    [ ${#started[@]} -eq 0 ] || kill -KILL "${started[@]}"
    wait
    rm -rf "$work"
}
trap finish EXIT

fail() {
    echo "$1"
    exit 1
}

# starts COMMAND..
starts() {
    "$@" &
    started+=($!)
}

names=(hd sd)

# packs FOLDER INPUTS OPTIONS..: packs the ladder of the two inputs.
packs() {
    local out=$1 inputs=$2
    shift 2
    exec "$program" pack --out "$out" --target 2 --window 4 --remove "$@" hd:avc1.42c01e:160x90:@"$work/hd.key":"$inputs/hd.ts" \
        sd:avc1.42c01e:80x46:@"$work/sd.key":"$inputs/sd.ts" >"$out.told" 2>&1
}

# trickles SECONDS: from standard input to standard output, in uneven pieces, in about this time.
trickles() {
    python3 -c '
import sys, time
data, at, piece = sys.stdin.buffer.read(), 0, 1
while at < len(data):
    piece = piece * 7919 % 30011 + 1
    sys.stdout.buffer.write(data[at:at + piece])
    sys.stdout.buffer.flush()
    at += piece
    time.sleep(float(sys.argv[1]) * piece / len(data))' "$1"
}

# the same WHAT ONE OTHER: two folders hold the same files with the same bytes.
the_same() {
    diff -r "$2" "$3" >"$work/difference" 2>&1 || fail "$1: $(head -n 3 "$work/difference" | tr '\n' ' ')"
}

last_of() { sed -n "s/^$2\.\([0-9]*\)\.ts$/\1/p" "$1/$2.m3u8" 2>"$work/none" | tail -n 1; }

# stands FOLDER SEGMENTS: so many segments of both renditions are listed.
stands() {
    local name
    for name in "${names[@]}"; do
        [ "$(($(last_of "$1" "$name") + 1))" -ge "$2" ] || return
    done
}

# is_drained FIFO: all that was written into it was read.
is_drained() {
    python3 -c '
import array, fcntl, os, sys, termios
left = array.array("i", [0])
fcntl.ioctl(os.open(sys.argv[1], os.O_RDONLY | os.O_NONBLOCK), termios.FIONREAD, left)
sys.exit(left[0] != 0)' "$1"
}

# waits COMMAND..
waits() {
    local end=$((SECONDS + 300))
    until "$@"; do
        [ $SECONDS -lt $end ] || fail "it doesn't come to pass: $*"
        sleep 0.1
    done
}

mkdir "$work/whole" "$work/front" "$work/back"
each=(-c:v libx264 -preset ultrafast -threads 1 -g 25 -keyint_min 25 -sc_threshold 0 -f mpegts)
ffmpeg -nostdin -v error -f lavfi -i testsrc2=size=160x90:rate=25:duration=40 -map 0 -b:v 300k "${each[@]}" "$work/whole/hd.ts" \
    -map 0 -b:v 100k -s 80x46 "${each[@]}" "$work/whole/sd.ts" || fail 'no input'
for name in "${names[@]}"; do
    openssl rand -out "$work/$name.key" 16
    # cut in the middle of a packet
    size=$(stat -c %s "$work/whole/$name.ts")
    head -c $((size / 2 + 77)) "$work/whole/$name.ts" >"$work/front/$name.ts"
    tail -c +$((size / 2 + 78)) "$work/whole/$name.ts" >"$work/back/$name.ts"
done

# makes_folders NAME..: of each a folder, and FIFOs beside it.
makes_folders() {
    local name
    for name in "$@"; do
        mkdir -p "$work/$name" "$work/$name.in"
        for rendition in "${names[@]}"; do
            [ -e "$work/$name.in/$rendition.ts" ] || mkfifo "$work/$name.in/$rendition.ts"
        done
    done
}

makes_folders one four
(packs "$work/one" "$work/whole" --workers 1) || fail "the one: $(cat "$work/one.told")"
starts packs "$work/four" "$work/four.in" --workers 4 --queue 3 --batch 1
four=${started[-1]}
trickles 2 <"$work/whole/hd.ts" >"$work/four.in/hd.ts" &
trickles 4 <"$work/whole/sd.ts" >"$work/four.in/sd.ts" &
wait "$four" || fail "the four: $(cat "$work/four.told")"
the_same 'files and FIFOs' "$work/one" "$work/four"
files=$(find "$work/one" -type f | wc -l)

# how many segments the front lists while its end is open: all but the last
mkdir "$work/ended"
(packs "$work/ended" "$work/front" --workers 2) || fail "the front: $(cat "$work/ended.told")"
segments=$(awk '{ print $2 - 1 }' "$work/ended.told" | sort -n | head -n 1)

makes_folders first second
holds=()
for name in first second; do
    for rendition in "${names[@]}"; do
        exec {held}<>"$work/$name.in/$rendition.ts"
        holds+=("$held")
    done
done
starts packs "$work/first" "$work/first.in" --workers 1
first=${started[-1]}
starts packs "$work/second" "$work/second.in" --workers 4 --batch 1
second=${started[-1]}
writers=()
for rendition in "${names[@]}"; do
    tee "$work/first.in/$rendition.ts" <"$work/front/$rendition.ts" | trickles 3 >"$work/second.in/$rendition.ts" &
    writers+=($!)
done
copies=0
until stands "$work/first" "$segments" && stands "$work/second" "$segments"; do
    [ $SECONDS -lt 900 ] || fail 'the two do not come to the cut'
    if stands "$work/second" 2; then
        "$samples/copy_folder" "$work/second" "$work/copy" >"$work/copied" 2>&1 || fail "the copy: $(tail -n 1 "$work/copied")"
        copies=$((copies + 1))
    fi
    sleep 0.1
done
[ $copies -ge 1 ] || fail 'nothing was copied while the packager ran'
# what is left in a FIFO would be read by the packager that goes on
wait "${writers[@]}"
for name in first second; do
    for rendition in "${names[@]}"; do
        waits is_drained "$work/$name.in/$rendition.ts"
    done
done
kill -KILL "$first" "$second"
wait "$first" "$second" 2>"$work/none"
the_same 'killed at the same byte' "$work/first" "$work/second"

for held in "${holds[@]}"; do
    exec {held}>&-
done
(packs "$work/first" "$work/back" --workers 4 --resume) || fail "the first goes on: $(cat "$work/first.told")"
starts packs "$work/second" "$work/second.in" --workers 1 --queue 2 --resume
second=${started[-1]}
for rendition in "${names[@]}"; do
    trickles 2 <"$work/back/$rendition.ts" >"$work/second.in/$rendition.ts" &
done
wait "$second" || fail "the second goes on: $(cat "$work/second.told")"
the_same 'resumed' "$work/first" "$work/second"

# the copy may be older: what it lists is listed on, and what follows is new
before=$(last_of "$work/copy" hd)
(packs "$work/copy" "$work/back" --workers 2 --resume) || fail "the copy goes on: $(cat "$work/copy.told")"
for rendition in "${names[@]}"; do
    "$program" check --keys @"$work/$rendition.key" "$work/copy/$rendition.m3u8" >"$work/none" || fail "the copy's $rendition isn't whole"
done
[ "$(last_of "$work/copy" hd)" -gt "$before" ] || fail 'the copy lists nothing new'
echo "$files files the same, $segments segments up to the kill, and $(find "$work/first" -type f | wc -l) files the same behind it; $copies copies"
