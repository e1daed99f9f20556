# Runs of pack that are stopped at one of their calls on the folder: stop_at_call.c says how.
# shellcheck shell=bash disable=SC2154

check_stops() {
    cc -Wall -shared -fPIC -o "$work/stop_at_call.so" "$here/stop_at_call.c" -ldl || return
    check 'pack: killed at each call on its folder, what is listed plays' plays_after_each_kill
    check 'pack: the same with --sync' plays_after_each_kill --sync
    check 'pack: 300 random ladders, killed, on a full disk or without their folder' stops_random_ladders 300
}

# plays_after_each_kill [OPTION]: killed at the first call, then the second, up to a run that ends.
plays_after_each_kill() {
    local number status folder=$work/stopped
    python3 -c 'import sys; sys.stdout.buffer.write(bytes.fromhex(sys.argv[1]))' "$key" >"$work/v.0.key"
    rm -f "$work/was_played"
    for ((number = 1; number <= 400; number++)); do
        rm -rf "$folder" && mkdir "$folder" && cp "$work/v.0.key" "$folder"
        status=0
        killed_at "$number" "$folder" pack "$@" --out "$folder" --target 1 "$ladder_of_one:$sample" || status=$?
        [ $status -eq 0 ] || [ $status -eq 137 ] || { echo "call $number: status $status"; return 1; }
        is_played "$folder" || { echo "call $number"; return 1; }
        if [ $status -eq 0 ]; then
            [ "$number" -gt 60 ] && [ "$(wc -l <"$folder/v.m3u8")" -gt 3 ] && return
            echo "$((number - 1)) calls"
            return 1
        fi
    done
    echo 'more than 400 calls'
    return 1
}

# killed_at NUMBER FOLDER ARGS..: runs the program, which is killed at this call. The shell tells of that too.
killed_at() (
    export HOW=kill AT=$1 FOLDER=$2
    shift 2
    LD_PRELOAD=$work/stop_at_call.so "$program" "$@" >"$work/out"
    exit $?
) 2>"$work/err"

# is_played FOLDER: its media playlist, if there is one, is read back; and if it's another than at the last look, ffmpeg reads all
# that it lists.
is_played() {
    local media=$1/v.m3u8
    [ -e "$media" ] || return 0
    writes check --keys "$key" "$media" || return
    ! cmp -s "$media" "$work/was_played" || return 0
    cp "$media" "$work/was_played"
    { cat "$media" && { grep ENDLIST "$media" || echo '#EXT-X-ENDLIST'; }; } >"$1/whole.m3u8"
    if ! ffmpeg -v error -xerror -allowed_extensions ALL -i "$1/whole.m3u8" -c copy -f null - 2>"$work/played" </dev/null || [ -s "$work/played" ]; then
        head -3 "$work/played"
        return 1
    fi
}

stops_random_ladders() {
    python3 "$here/stops.py" "$program" "$work/stop_at_call.so" "$1" >"$work/stops" 2>&1 || { head -3 "$work/stops"; tail -1 "$work/stops"; return 1; }
}
