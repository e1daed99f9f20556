# The checks of pack on a ladder that is made while it is packed: one encoder, three FIFOs, in real time.
# shellcheck shell=bash disable=SC2154

check_live_ladder() {
    check 'pack: a live ladder of three, watched' packs_live "${LIVE_SECONDS:-30}"
    check 'pack: a channel as the guide has it, killed, silent, resumed, and with one rendition more, by each player' \
        at_most_twice "$here/origin.sh" "$program"
    check 'pack: three restarts of a live ladder, frame by frame, by each player' at_most_twice "$here/players.sh" "$program"
    check 'pack: two packagers that are fed the same bytes write the same files' at_most_twice "$here/two_machines.sh" "$program"
    check 'samples: the pod for a cluster' reads_the_pod
    check 'pack: one of three inputs is silent, faster, or before the others' plays_silence silence.py
    check 'pack: one of three inputs is silent for too long, or has a fault' plays_silence stalls.py
}

# encodes_live SECONDS FOLDER: 6 Mbit/s, 800 and 60 kbit/s at the encoder's own flags, a key frame every second.
encodes_live() {
    local each=(-c:v libx264 -preset ultrafast -tune zerolatency -g 25 -keyint_min 25 -sc_threshold 0 -f mpegts)
    timeout $(($1 + 60)) ffmpeg -nostdin -y -v error -re -f lavfi -i "testsrc2=size=320x180:rate=25:duration=$1,noise=alls=40:allf=t" \
        -map 0 -b:v 6M -minrate 6M -maxrate 6M -bufsize 6M "${each[@]}" "$2/high" \
        -map 0 -b:v 800k -maxrate 800k -bufsize 800k "${each[@]}" "$2/mid" \
        -map 0 -b:v 60k -maxrate 60k -bufsize 60k "${each[@]}" "$2/low"
}

packs_live() {
    local seconds=$1 names=(high mid low) name entries=() status=0 frames
    rm -rf "$work/live" "$work/pipes" "$work/watched" && mkdir "$work/live" "$work/pipes" || return
    for name in "${names[@]}"; do
        mkfifo "$work/pipes/$name" && entries+=("$name:avc1.42c01e:320x180:$key:$work/pipes/$name")
    done
    mkfifo "$work/until"
    python3 "$here/watching.py" "$work/live" "$key" "${names[@]}" <"$work/until" >"$work/watched" 2>&1 &
    local watching=$!
    exec 8>"$work/until"
    encodes_live "$seconds" "$work/pipes" >"$work/encoded" 2>&1 &
    timeout $((seconds + 60)) "$program" pack --out "$work/live" --target 3 --segment 2 "${entries[@]}" >"$work/out" 2>"$work/err" || status=$?
    exec 8>&-
    wait "$watching" || { echo "the watcher: $(tail -1 "$work/watched")"; return 1; }
    rm "$work/until"
    [ $status -eq 0 ] || { echo "status $status, $(cat "$work/err")"; return 1; }
    [ "$(wc -l <"$work/out")" -eq 3 ] || { echo "the summary is '$(cat "$work/out")'"; return 1; }
    for name in "${names[@]}"; do
        writes check --keys "$key" "$work/live/$name.m3u8" || return
    done
    read -r _ frames <"$work/watched"
    [ "$frames" -ge $((seconds * 3 / 2 - 6)) ] || { echo "the watcher opened $frames segments"; return 1; }
}

plays_silence() {
    python3 "$here/$1" "$program" >"$work/silence" 2>&1 || { tail -1 "$work/silence"; return 1; }
}

# at_most_twice COMMAND..: in real time, with players that a busy machine may hold up for too long: so it is played once more before
# it counts as failed. What was told the first time is told too.
at_most_twice() {
    "$@" >"$work/played" 2>&1 && return
    tail -5 "$work/played" >"$work/played_first"
    "$@" >"$work/played" 2>&1 && { echo "the first time: $(tr '\n' ' ' <"$work/played_first")"; return; }
    cat "$work/played_first"
    tail -5 "$work/played"
    return 1
}

reads_the_pod() {
    python3 "$here/kubernetes.py" "$here/../samples/origin/kubernetes.yaml" >"$work/pod" 2>&1 || { tail -2 "$work/pod"; return 1; }
}
