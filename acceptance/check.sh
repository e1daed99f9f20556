# The checks of check, on folders that the other checks made too.
# shellcheck shell=bash disable=SC2154

check_check() {
    local bad
    check 'check: a folder is made' make_standard_folder "$work/hls"
    check 'check: the standard stream' prints 'ok 2 752' check --keys "$key" "$work/hls/v.m3u8"
    check 'check: in the folder itself' in_folder "$work/hls" prints 'ok 2 752' check --keys "$key" v.m3u8
    check 'check: the playlist before the options' prints 'ok 2 752' check "$work/hls/v.m3u8" --keys "${key^^}"
    check 'check: more keys than are named' prints 'ok 2 752' check --keys "$key+$vector" "$work/hls/v.m3u8"
    check 'check: a name that is escaped' checks_escaped_name
    check_check_options
    check_bad_playlists
    check_bad_segments
    check 'check: a full standard output' checks_into_full
    check 'check: each allocation refused in turn' tells_no_memory writes_nothing /dev/null check --keys "$key" "$work/hls/v.m3u8"
}

make_standard_folder() {
    local folder=$1
    shift
    [ -d "$work/worked" ] || python3 "$here/standard_stream.py" "$work/worked" || return
    from "$work/worked/standard.ts" writes one --codecs avc1.4d401e --size 640x360 --keys "$key" "$@" &&
        from "$work/out" python3 "$here/unfold.py" "$folder" v "$key"
}

in_folder() {
    cd "$1" || return
    shift
    "$@"
}

checks_escaped_name() {
    make_standard_folder "$work/escaped" --name 'hd ü' || return
    [ -e "$work/escaped/hd ü.1.ts" ] || { ls "$work/escaped"; return 1; }
    prints 'ok 2 752' check --keys "$key" "$work/escaped/hd ü.m3u8"
}

check_check_options() {
    local bad
    for bad in '' + 00 "${key}+" "+$key" "$key++$key" "${key%?}g" "$key,$key"; do
        check "check: the keys '$bad'" refuses 2 BadKey check --keys "$bad" "$work/hls/v.m3u8"
    done
    check 'check: a bad key and no playlist there' refuses 2 BadKey check --keys 00 "$work/nothing.m3u8"
    check 'check: no keys' misused check "$work/hls/v.m3u8"
    check 'check: no playlist' misused check --keys "$key"
    check 'check: two playlists' misused check --keys "$key" "$work/hls/v.m3u8" "$work/hls/v.m3u8"
    check 'check: an unknown option' misused check --keys "$key" --seq 0 "$work/hls/v.m3u8"
    check 'check: help' misused check --help
    check "check: a path that isn't UTF-8" turned_away check --keys "$key" $'\xff'
}

# changed FOLDER: a copy of the standard folder, to be damaged.
changed() {
    rm -rf "$work/changed"
    cp -r "$work/hls" "$work/changed"
}

# with_form OPTIONS.. -- COMMAND..: the command, where the standard folder is made under these options.
with_form() {
    local options=() made=$work/hls status=0
    while [ "$1" != -- ]; do
        options+=("$1")
        shift
    done
    shift
    make_standard_folder "$work/form" "${options[@]}" || return
    mv "$made" "$work/hls_before" && mv "$work/form" "$made" || return
    "$@" || status=$?
    rm -rf "$made" && mv "$work/hls_before" "$made" && return $status
}

# with_text SED FAULT: what is told where the playlist was changed so.
with_text() {
    changed && sed -i "$1" "$work/changed/v.m3u8" && refuses 1 "$2" check --keys "$key" "$work/changed/v.m3u8"
}

# of_bytes FAULT: what is told where the playlist is standard input.
of_bytes() {
    changed && cat >"$work/changed/v.m3u8" && refuses 1 "$1" check --keys "$key" "$work/changed/v.m3u8"
}

check_bad_playlists() {
    local playlist=$work/hls/v.m3u8
    check 'check: no such playlist' refuses 1 Unread check --keys "$key" "$work/hls/w.m3u8"
    check 'check: a folder for a playlist' refuses 1 Unread check --keys "$key" "$work/hls"
    check 'check: an empty path' refuses 1 Unread check --keys "$key" ''
    check "check: a playlist that isn't UTF-8" reads $'#EXTM3U\n\xff' of_bytes Unread
    check 'check: an empty playlist' reads '' of_bytes 'NotProfile 1'
    check 'check: a byte order mark' with_text '1s/^/\xef\xbb\xbf/' 'NotProfile 1'
    check 'check: CR LF' with_text 's/$/\r/' 'NotProfile 1'
    check 'check: another version' with_text '2s/4/3/' 'NotProfile 2'
    check 'check: a leading zero' with_text 's/SEQUENCE:0/SEQUENCE:00/' 'NotProfile 4'
    check 'check: no line of a key' with_text '6d' 'NotProfile 6'
    check 'check: another segment' with_text '10s/1/2/' 'NotProfile 10'
    check 'check: cut behind line 9' with_text '10,$d' 'NotProfile 10'
    check 'check: the last LF is missing' from <(head -c -1 "$playlist") of_bytes 'NotProfile 11'
    check 'check: an LF too many' from <(cat "$playlist" && echo) of_bytes 'NotProfile 12'
    check 'check: an I-frame playlist' refuses 1 'NotProfile 6' check --keys "$key" "$work/hls/v.iframes.m3u8"
    check 'check: a master playlist' refuses 1 'NotProfile 3' check --keys "$key" "$work/hls/master.m3u8"
    check_salted_playlists
    check 'check: a wrong line ahead of a missing segment' tells_a_wrong_line_first
}

check_salted_playlists() {
    local salt=f0f1f2f3f4f5f6f7f8f9fafbfcfdfeff
    check 'check: under a salt' with_form --salt "$salt" -- prints 'ok 2 752' check --keys "$key" "$work/hls/v.m3u8"
    check 'check: an event' with_form --event -- prints 'ok 2 752' check --keys "$key" "$work/hls/v.m3u8"
    check 'check: an event under a salt' \
        with_form --event --salt "$salt" -- prints 'ok 2 752' check --keys "$key" "$work/hls/v.m3u8"
    check "check: another segment's vector" with_form --salt "$salt" -- with_text '9s/FE$/FF/' 'NotProfile 9'
    check 'check: a line of a vector is missing' with_form --salt "$salt" -- with_text 9d 'NotProfile 9'
    check 'check: a vector in lower case' with_form --salt "$salt" -- with_text '6s/F0F1/f0f1/' 'NotProfile 6'
    check 'check: another salt' with_form --salt "$salt" -- with_text '6s/F0/F1/;9s/F0/F1/' 'NoHead 0'
    check 'check: an event that begins at 1' with_form --event -- with_text '4s/0/1/' 'NotProfile 6'
    check 'check: an event behind a discontinuity' with_form --event -- with_text '5s/0/1/' 'NotProfile 6'
    check 'check: the type twice' with_form --event -- with_text 6p 'NotProfile 7'
}

tells_a_wrong_line_first() {
    changed && rm "$work/changed/v.0.ts" && sed -i '2s/4/3/' "$work/changed/v.m3u8" &&
        refuses 1 'NotProfile 2' check --keys "$key" "$work/changed/v.m3u8"
}

# with_segments FAULT COMMAND..: what is told where the command changed the folder that it runs in.
with_segments() {
    local fault=$1
    shift
    changed && (in_folder "$work/changed" "$@") && refuses 1 "$fault" check --keys "$key" "$work/changed/v.m3u8"
}

check_bad_segments() {
    check 'check: a segment is missing' with_segments Unread rm v.1.ts
    check 'check: a folder for a segment' with_segments Unread eval 'rm v.0.ts; mkdir v.0.ts'
    check "check: a segment isn't there and another doesn't open" with_segments Unread eval 'rm v.1.ts; truncate -s -1 v.0.ts'
    check 'check: a byte is missing' with_segments 'Closed 0' truncate -s -1 v.0.ts
    check 'check: a block is missing' with_segments 'Closed 1' truncate -s -16 v.1.ts
    check 'check: an empty segment' with_segments 'Closed 1' truncate -s 0 v.1.ts
    check 'check: the segments exchanged' with_segments 'NoHead 0' eval 'mv v.0.ts x; mv v.1.ts v.0.ts; mv x v.1.ts'
    check 'check: another key' refuses 1 'Closed 0' check --keys "$vector" "$work/hls/v.m3u8"
    check 'check: too few keys' lacks_a_key
}

# The second segment has the second key.
lacks_a_key() {
    rm -rf "$work/two_keys"
    from "$work/worked/standard.ts" writes one --codecs avc1.4d401e --size 640x360 --keys "$key+$vector" &&
        from "$work/out" python3 "$here/unfold.py" "$work/two_keys" v "$key+$vector" &&
        prints 'ok 2 752' check --keys "$key+$vector" "$work/two_keys/v.m3u8" &&
        refuses 1 'Missing 1' check --keys "$key" "$work/two_keys/v.m3u8" &&
        refuses 1 'Closed 0' check --keys "$vector+$key" "$work/two_keys/v.m3u8"
}

checks_into_full() {
    local status
    timeout 120 "$program" check --keys "$key" "$work/hls/v.m3u8" >/dev/full 2>"$work/err"
    status=$?
    [ $status -eq 1 ] || { echo "status $status"; return 1; }
    is_line 'standard error' "$work/err" 'tshls: Unwritten'
}

# check_served NAME: the folder that was just served is whole, and isn't where a byte of a segment is another.
check_served() {
    local name=$1
    check "check: $name: the folder" served_is_whole
    check "check: $name: a byte of a segment's first block is another" served_is_damaged NoHead 5
    check "check: $name: a byte of a segment's last block but one is another" served_is_damaged Closed -17
}

served_is_whole() {
    local segments
    segments=$(grep -c '^#EXTINF:' "$work/served/v.m3u8")
    python3 "$here/opened.py" "$work/served" v >"$work/opened" || return
    prints "ok $segments $(wc -c <"$work/opened")" check --keys "$key+$second_key" "$work/served/v.m3u8"
}

# served_is_damaged FAULT PLACE: the last segment but one, where there are two, has another byte at that place.
served_is_damaged() {
    local segments number
    segments=$(grep -c '^#EXTINF:' "$work/served/v.m3u8")
    number=$((segments > 1 ? segments - 2 : 0))
    rm -rf "$work/changed"
    cp -r "$work/served" "$work/changed"
    python3 - "$work/changed/v.$number.ts" "$2" <<'PYTHON' || return
import pathlib
import sys

segment = pathlib.Path(sys.argv[1])
data = bytearray(segment.read_bytes())
data[int(sys.argv[2])] ^= 0x80
segment.write_bytes(data)
PYTHON
    refuses 1 "$1 $number" check --keys "$key+$second_key" "$work/changed/v.m3u8"
}
