# The checks of pack's folders over HTTP, from a plain file server.
# shellcheck shell=bash disable=SC2154

check_served_ladder() {
    local frames
    frames=$(count_frames "$work/real/h264.ts")
    check 'pack: a ladder to be served' makes_served_ladder
    check 'pack: ffmpeg plays each rendition over HTTP' over_http plays_renditions "$frames"
    check 'pack: ffmpeg plays the master playlist over HTTP' over_http plays_master "$frames"
}

makes_served_ladder() {
    packs_into "$work/web" --target 2 --event "high:avc1.64000d,mp4a.40.2:320x180:$key:$work/real/h264.ts" \
        "low:avc1.64000d,mp4a.40.2:320x180:$second_key:$work/real/h264.ts" || return
    bytes_of <<<"$key" >"$work/web/high.0.key" && bytes_of <<<"$second_key" >"$work/web/low.0.key"
}

# over_http COMMAND..: the command behind the address of a server of the folder.
over_http() {
    local serving status=0 port='' turns
    python3 -u -m http.server 0 --bind 127.0.0.1 --directory "$work/web" >"$work/serving" 2>"$work/requests" &
    serving=$!
    for ((turns = 0; turns < 100 && ${#port} == 0; turns++)); do
        sleep 0.1
        port=$(sed -nE 's/.* port ([0-9]+) .*/\1/p' "$work/serving")
    done
    "$1" "http://127.0.0.1:$port" "${@:2}" || status=$?
    kill "$serving"
    wait "$serving" 2>"$work/told"
    return $status
}

plays_renditions() { plays "$1/high.m3u8" "$2" && plays "$1/low.m3u8" "$2"; }

# The master playlist lists the I-frames too, as renditions of their own: the first one is played.
plays_master() {
    local count
    ffprobe -v error -allowed_extensions ALL -select_streams v:0 -show_entries frame=pict_type -of csv=p=0 "$1/master.m3u8" \
        >"$work/frames" 2>"$work/told" || { echo "status $?, $(head -1 "$work/told")"; return 1; }
    count=$(grep -c . "$work/frames")
    [ "$count" -eq "$2" ] || { echo "$count frames in place of $2"; return 1; }
}
