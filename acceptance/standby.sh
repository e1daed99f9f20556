# The checks of what samples/origin does where something fails: a copy that is cut off, and inputs that nobody writes to.
# shellcheck shell=bash disable=SC2154

check_standby() {
    rm -rf "$work/standby" && mkdir "$work/standby" || return
    check 'origin: a copy of a folder that is cut off anywhere is finished or dropped' finishes_copies
    check 'origin: a copy that fails leaves the one before, and names have any letters' fails_to_copy
    check 'origin: an input to which nobody writes is silent, not at its end' holds_inputs
}

copies_folder() { "$here/../samples/origin/copy_folder" "$@"; }

# makes_listed_folder FOLDER FIRST LAST: a rendition with a name that a URI has to spell otherwise, of which these segments are listed.
makes_listed_folder() {
    local n
    rm -rf "$1" && mkdir "$1" || return
    { echo '#EXTM3U'; for ((n = $2; n <= $3; n++)); do echo "#EXTINF:1.0,"; echo "h%20d%2B.$n.ts"; done; } >"$1/h d+.m3u8"
    for ((n = $2; n <= $3; n++)); do echo "segment $n" >"$1/h d+.$n.ts"; done
}

# kills_copy_at N: a folder of commands of which the N-th call kills the script that makes it.
kills_copy_at() {
    local name
    rm -rf "$work/standby/bin" && mkdir "$work/standby/bin" && echo "$1" >"$work/standby/left" || return
    for name in cp mv rm touch; do
        printf '%s\n' '#!/bin/bash' "left=\$(<'$work/standby/left')" "echo \$((left - 1)) >'$work/standby/left'" \
            "[ \"\$left\" != 1 ] || { kill -KILL \$PPID; exit 1; }" "exec /bin/$name \"\$@\"" >"$work/standby/bin/$name"
        chmod +x "$work/standby/bin/$name"
    done
}

finishes_copies() {
    local n folder=$work/standby
    makes_listed_folder "$folder/old" 0 3 && makes_listed_folder "$folder/new" 2 5 || return
    for ((n = 1; n < 40; n++)); do
        rm -rf "$folder/copy" && copies_folder "$folder/old" "$folder/copy" && kills_copy_at "$n" || return
        if PATH=$folder/bin:$PATH "$here/../samples/origin/copy_folder" "$folder/new" "$folder/copy" 2>"$folder/told"; then break; fi
        copies_folder --finish "$folder/copy" || { echo "cut off at call $n: it isn't finished"; return 1; }
        diff -r "$folder/old" "$folder/copy" >"$folder/told" || diff -r "$folder/new" "$folder/copy" >"$folder/told" ||
            { echo "cut off at call $n: $(head -1 "$folder/told")"; return 1; }
    done
    [ "$n" -gt 10 ] || { echo "only $n calls"; return 1; }
    diff -r "$folder/new" "$folder/copy"
}

fails_to_copy() {
    local folder=$work/standby
    makes_listed_folder "$folder/old" 0 3 && makes_listed_folder "$folder/lacking" 2 5 && rm "$folder/lacking/h d+.5.ts" && rm -rf "$folder/copy" || return
    copies_folder "$folder/old" "$folder/copy" || return
    ! copies_folder "$folder/lacking" "$folder/copy" 2>"$folder/told" || { echo 'a copy that lacks a segment ends well'; return 1; }
    copies_folder --finish "$folder/copy" && diff -r "$folder/old" "$folder/copy"
}

# The sample is written once, and then no writer is left: the rendition stays open, and so does the packager.
holds_inputs() {
    local folder=$work/standby turns packing told=0
    printf '%s\n' "folder=$folder/channel" 'options=(--target 1)' \
        'renditions=(hd:avc1.4d401e,mp4a.40.2:320x180:@keys/hd.0.key:in/hd.ts)' >"$folder/channel.conf"
    "$here/../samples/origin/make_folder" "$folder/channel.conf" || return
    tshls=$program "$here/../samples/origin/channel" "$folder/channel.conf" >"$folder/out" 2>"$folder/told" &
    packing=$!
    cat "$sample" >"$folder/channel/in/hd.ts"
    for ((turns = 0; turns < 100; turns++)); do
        grep -q '\.1\.ts$' "$folder/channel/hls/hd.m3u8" 2>"$folder/none" && break
        sleep 0.1
    done
    sleep 1
    grep -q '\.1\.ts$' "$folder/channel/hls/hd.m3u8" || { echo 'nothing is listed'; told=1; }
    ! grep ENDLIST "$folder/channel/hls/hd.m3u8" || { echo 'it has an end'; told=1; }
    kill -KILL "$packing" || { echo "the packager has ended: $(head -1 "$folder/told")"; told=1; }
    wait "$packing" 2>"$folder/none"
    return $told
}
