# The checks of one.
# shellcheck shell=bash disable=SC2154

second_key=$vector
salt=f0f1f2f3f4f5f6f7f8f9fafbfcfdfeff
one=(one --codecs avc1.4d401e --size 640x360 --keys "$key")
one_by_two_keys=(one --codecs avc1.4d401e --size 320x180 --keys "$key+$second_key")

check_one() {
    [ -d "$work/worked" ] || check 'one: the worked inputs are made' python3 "$here/standard_stream.py" "$work/worked"
    [ -d "$work/real" ] || check 'one: the real streams are made' make_real_streams "$work/real"
    check_one_options
    check_worked_inputs
    check_real_streams
    check 'one: each item at once' gives_a_segment_at_once
    check 'one: each allocation refused in turn' tells_no_memory writes_a_beginning "$work/worked/standard.ts" "${one[@]}"
    # shellcheck disable=SC2034
    local options=("${one[@]:1}") unread='Read 0' unwritten=Outlet
    check_failing_ends one "$work/worked/standard.ts" "$work/repeated.big"
}

# A segment is there as soon as the packet behind it has come, while the input is still open.
gives_a_segment_at_once() {
    local first
    coproc ONE { timeout 120 "$program" "${one[@]}" 2>"$work/killed_err"; }
    head -c 940 "$work/worked/standard.ts" >&"${ONE[1]}"
    read -r -t 60 first <&"${ONE[0]}"
    kill "$ONE_PID"
    [ "$first" = 'segment v.0.ts 768' ] || { echo "the first line is '${first:0:80}'"; return 1; }
}

# wanted COMMAND FILE OPTIONS..: what the script of that name makes of the file, under the options of one.
wanted() {
    local script=$1 input=$2
    shift 3
    python3 "$here/$script.py" "$@" <"$input"
}

# agrees FILE OPTIONS..: the program ends as the rules want, and writes the very lines.
agrees() {
    local input=$1 status=0 wanted_status=0
    shift
    wanted wanted "$input" "$@" >"$work/wanted" 2>"$work/wanted_fault" || wanted_status=$?
    timeout 300 "$program" "$@" <"$input" >"$work/out" 2>"$work/err" || status=$?
    [ $status -eq $wanted_status ] || { echo "status $status in place of $wanted_status, $(cat "$work/err")"; return 1; }
    is_equal 'standard error' "$work/err" "$work/wanted_fault" && is_equal 'standard output' "$work/out" "$work/wanted"
}

# packs FACTS NAME OPTIONS..: the sizes and seconds of the last segments, SIZE:SECONDS each.
packs() {
    local facts=$1 input=$work/worked/$2.ts found
    shift 2
    agrees "$input" "$@" || return
    found=$(awk '$1 == "segment" { size[count++] = $3 }
        $1 == "media" { first = last = 0 }
        $1 == "frames" { last = 1 }
        /^#EXT-X-MEDIA-SEQUENCE:/ && !last { split($0, part, ":"); first = part[2] }
        /^#EXTINF:/ && !last { split($0, part, /[:,]/); seconds[first++] = part[2] }
        END { for (i = 0; i < count; i++) printf "%s%s:%s", i ? " " : "", size[i], seconds[i] }' "$work/out")
    [ "$found" = "$facts" ] || { echo "segments $found in place of $facts"; return 1; }
}

# faults FAULT NAME OPTIONS..: nothing is given before it.
faults() {
    local fault=$1 input=$work/worked/$2.ts
    shift 2
    agrees "$input" "$@" && from "$input" refuses 1 "$fault" "$@"
}

# has_last_lines: what the program wrote ends with the lines of standard input.
has_last_lines() {
    cat >"$work/last_lines"
    tail -n "$(wc -l <"$work/last_lines")" "$work/out" >"$work/tail"
    is_equal 'the last lines' "$work/tail" "$work/last_lines"
}

check_worked_inputs() {
    local standard='768:6.000000 768:3.040000'
    check 'one: the standard stream' gives_standard_lines
    check 'one: the standard stream, its last texts' gives_standard_texts
    check 'one: the standard stream, a byte at a time' gives_standard_lines_of_bytes
    check 'one: five bytes before' packs "$standard" noise_before "${one[@]}"
    check 'one: the last byte is missing' packs '768:6.000000 576:0.040000' last_byte_missing "${one[@]}"
    check 'one: a byte is missing in the middle' packs "$standard" byte_missing "${one[@]}"
    check 'one: a PAT with a bad CRC' faults 'NoProgram 0' bad_crc "${one[@]}"
    check 'one: tables alone' faults 'NoStart 0' tables_alone "${one[@]}"
    check 'one: no key frame' faults 'NoStart 0' no_key_frame "${one[@]}"
    check 'one: no input' faults 'NoProgram 0' empty "${one[@]}"
    check 'one: one key frame' packs 576:0.040000 one_key_frame "${one[@]}"
    check 'one: across the wrap of the time' packs '576:6.000000 576:0.040000' wrap "${one[@]}"
    check 'one: eight seconds' faults 'LongSegment 0 0' eight_seconds "${one[@]}"
    check 'one: eight seconds, target 8' packs '576:8.000000 576:0.040000' eight_seconds "${one[@]}" --target 8 --segment 6
    check 'one: 6.5 seconds' faults 'LongSegment 0 0' rounds_up "${one[@]}"
    check 'one: 6.5 seconds, target 7' packs '576:6.500000 576:0.040000' rounds_up "${one[@]}" --target 7 --segment 6
    check 'one: a tick less than 6.5 seconds' packs '576:6.499989 576:0.040000' rounds_down "${one[@]}"
    check 'one: a new epoch' packs '944:3.040000 576:0.040000' new_epoch "${one[@]}"
    check 'one: seven segments, window 3' lists_from 4 0 seven_segments "${one[@]}" --window 3
    check 'one: seven segments, window 1' lists_from 4 0 seven_segments "${one[@]}" --window 1
    check 'one: seven segments, window 7' lists_from 0 0 seven_segments "${one[@]}" --window 7
    check 'one: an epoch in seven segments' lists_from 4 1 epoch_in_seven_segments "${one[@]}" --window 3
    check 'one: two keys, period 2' names_keys '0 1 0' five_segments "${one_by_two_keys[@]}" --period 2
    check 'one: the standard stream under a salt' gives_salted_lines
    check 'one: seven segments of an event' lists_from 0 0 seven_segments "${one[@]}" --window 1 --event
    check 'one: an epoch in seven segments of an event' lists_from 0 0 epoch_in_seven_segments "${one[@]}" --window 3 --event
    check 'one: seven segments of an event under a salt' lists_from 0 0 seven_segments "${one[@]}" --event --salt "$salt"
    check 'one: seven segments under a salt, window 3' lists_from 4 0 seven_segments "${one[@]}" --window 3 --salt "$salt"
    check 'one: two I-frames in a segment' packs '768:6.000000 576:0.040000' two_iframes "${one[@]}"
    check 'one: other tables on the way' packs '768:3.333333 576:0.040000' new_tables "${one[@]}"
    check 'one: too many packets' faults 'BigSegment 0 0' standard "${one[@]}" --most 1
    check 'one: as many packets as may be' packs "$standard" standard "${one[@]}" --most 2
    check 'one: the program is named' packs "$standard" standard "${one[@]}" --program 1
    check 'one: another program is named' faults 'NoProgram 0' standard "${one[@]}" --program 2
    check 'one: a name that is escaped' packs "$standard" standard "${one[@]}" --name 'hd ü'
    check 'one: a long last frame' packs '768:6.000000 768:13.000000' standard "${one[@]}" --frame 900000 --target 13 --segment 6
    check 'one: a small gap' packs '576:0.040000 576:0.040000' wrap "${one[@]}" --gap 539999
}

gives_standard_lines() {
    packs '768:6.000000 768:3.040000' standard "${one[@]}" || return
    grep -E '^(segment|media|frames|master) ' "$work/out" >"$work/first_lines"
    is_equal 'the first lines' "$work/first_lines" - <<'LINES'
segment v.0.ts 768
media v.m3u8 8
frames v.iframes.m3u8 10
master master.m3u8 5
segment v.1.ts 768
media v.m3u8 10
frames v.iframes.m3u8 14
master master.m3u8 5
media v.m3u8 11
frames v.iframes.m3u8 15
LINES
}

# Lines 6 to 12 of the last media playlist.
gives_salted_lines() {
    packs '768:6.000000 768:3.040000' standard "${one[@]}" --salt "${salt^^}" || return
    tac "$work/out" | sed '/^media /q' | tac | sed -n '/^frames /q; p' | sed -n '7,13p' >"$work/salted_lines"
    is_equal 'the salted lines' "$work/salted_lines" - <<'LINES'
#EXT-X-KEY:METHOD=AES-128,URI="v.0.key",IV=0xF0F1F2F3F4F5F6F7F8F9FAFBFCFDFEFF
#EXTINF:6.000000,
v.0.ts
#EXT-X-KEY:METHOD=AES-128,URI="v.0.key",IV=0xF0F1F2F3F4F5F6F7F8F9FAFBFCFDFEFE
#EXTINF:3.040000,
v.1.ts
#EXT-X-ENDLIST
LINES
}

gives_standard_texts() {
    from "$work/worked/standard.ts" writes "${one[@]}" || return
    has_last_lines <<'LINES'
master master.m3u8 5
#EXTM3U
#EXT-X-VERSION:4
#EXT-X-STREAM-INF:BANDWIDTH=2022,AVERAGE-BANDWIDTH=1360,CODECS="avc1.4d401e",RESOLUTION=640x360
v.m3u8
#EXT-X-I-FRAME-STREAM-INF:BANDWIDTH=495,AVERAGE-BANDWIDTH=333,CODECS="avc1.4d401e",RESOLUTION=640x360,URI="v.iframes.m3u8"
media v.m3u8 11
#EXTM3U
#EXT-X-VERSION:4
#EXT-X-TARGETDURATION:6
#EXT-X-MEDIA-SEQUENCE:0
#EXT-X-DISCONTINUITY-SEQUENCE:0
#EXT-X-KEY:METHOD=AES-128,URI="v.0.key"
#EXTINF:6.000000,
v.0.ts
#EXTINF:3.040000,
v.1.ts
#EXT-X-ENDLIST
frames v.iframes.m3u8 15
#EXTM3U
#EXT-X-VERSION:4
#EXT-X-TARGETDURATION:6
#EXT-X-MEDIA-SEQUENCE:0
#EXT-X-DISCONTINUITY-SEQUENCE:0
#EXT-X-I-FRAMES-ONLY
#EXT-X-KEY:METHOD=AES-128,URI="v.0.key",IV=0x00000000000000000000000000000000
#EXTINF:6.000000,
#EXT-X-BYTERANGE:188@376
v.0.ts
#EXT-X-KEY:METHOD=AES-128,URI="v.0.key",IV=0x00000000000000000000000000000001
#EXTINF:3.040000,
#EXT-X-BYTERANGE:188@376
v.1.ts
#EXT-X-ENDLIST
LINES
}

gives_standard_lines_of_bytes() {
    local input=$work/worked/standard.ts
    wanted wanted "$input" "${one[@]}" >"$work/wanted" || return
    python3 "$here/pieces.py" "$input" 1 | writes "${one[@]}" && is_equal 'standard output' "$work/out" "$work/wanted"
}

# lists_from SEQUENCE DISCONTINUITIES NAME OPTIONS..: where the last media playlist begins.
lists_from() {
    local found wanted="$1 $2" input=$work/worked/$3.ts
    shift 3
    agrees "$input" "$@" || return
    found=$(tac "$work/out" | sed '/^media /q' | tac |
        sed -nE '/^frames /q; s/^#EXT-X-(MEDIA|DISCONTINUITY)-SEQUENCE:(.*)/\2/p' | tr '\n' ' ')
    [ "$found" = "$wanted " ] || { echo "$found in place of $wanted"; return 1; }
}

# names_keys KEYS NAME OPTIONS..: the keys of the last media playlist.
names_keys() {
    local found wanted=$1 input=$work/worked/$2.ts
    shift 2
    agrees "$input" "$@" || return
    found=$(tac "$work/out" | sed '/^media /q' | tac | sed -nE '/^frames /q; s/.*URI="v\.([0-9]*)\.key"$/\1/p' | tr '\n' ' ')
    [ "$found" = "$wanted " ] || { echo "$found in place of $wanted"; return 1; }
}

check_real_streams() {
    local real=$work/real
    check_stream sample "$sample" --target 1
    check_stream h264 "$real/h264.ts" --target 2
    check_stream h264_in_one_segment "$real/h264.ts"
    check_stream h264_under_a_salt "$real/h264.ts" --target 2 --salt "$salt"
    check_stream h264_of_an_event "$real/h264.ts" --target 2 --event
    check_stream hevc_under_a_salt_of_an_event "$real/hevc.ts" --target 2 --event --salt "$salt"
    check_stream hevc "$real/hevc.ts" --target 2
    check_stream mpeg2 "$real/mpeg2.ts" --target 2 --segment 1
    check_stream wrap "$real/wrap.ts" --target 2
    check_stream jump "$real/jump.ts" --target 2
    check_stream jump_back "$real/jump_back.ts" --target 2
    check_stream looped "$real/looped.ts" --target 2 --gap 90000
    check_stream constant_rate "$real/constant_rate.ts" --target 2
    check_stream service_tables "$real/service_tables.ts" --target 2
    check_stream begins_in_the_middle "$real/begins_in_the_middle.ts" --target 2
    check_stream long_pmt "$real/long_pmt.ts" --target 2
    video=p:3:v check_stream first_program "$real/two_programs.ts" --target 2
    video=p:7:v check_stream named_program "$real/two_programs.ts" --target 2 --segment 1 --program 7
    check_stream doubled_pmt "$real/doubled_0x1000.ts" --target 2
    check_lines doubled_audio "$real/doubled_0x101.ts" --target 2
    check 'one: doubled_audio: ffmpeg plays it without the repeats' plays_without_repeats "$real/h264.ts"
    check_lines doubled_video "$real/doubled_0x100.ts" --target 2
    check 'one: doubled_video: ffmpeg plays it without the repeats' plays_without_repeats "$real/h264.ts"
    check_lines h264_then_hevc "$real/h264_then_hevc.ts" --target 2
    check 'one: h264_then_hevc: ffmpeg plays each stretch' plays_stretches "$real/h264.ts" "$real/hevc.ts"
    check 'one: h264_then_hevc: ffmpeg plays the I-frames of each' plays_stretches_of_iframes "$real/h264.ts" "$real/hevc.ts"
}

# check_stream NAME INPUT OPTIONS..: with a window that keeps all. The variable video names the input's stream.
check_stream() {
    local name=$1 input=$2
    check_lines "$@"
    check "one: $name: ffmpeg plays it" plays "$work/served/v.m3u8" "$(count_frames "$input")"
    check "one: $name: ffmpeg plays its I-frames" plays_iframes "$work/served/v.iframes.m3u8" "$(count_key_frames "$input")"
}

# check_lines NAME INPUT OPTIONS..: the folder served has what was packed.
check_lines() {
    local name=$1 input=$2
    shift 2
    check "one: $name: the lines" agrees "$input" "${one_by_two_keys[@]}" --window 10000 "$@"
    rm -rf "$work/served"
    check "one: $name: the files" from "$work/out" python3 "$here/unfold.py" "$work/served" v "$key+$second_key"
    check "one: $name: openssl opens the accepted packets" opens_accepted "$input" "${one_by_two_keys[@]}" "$@"
    check_served "$name"
}

opens_accepted() {
    wanted accepted "$@" >"$work/wanted" && python3 "$here/opened.py" "$work/served" v >"$work/opened" || return
    [ -s "$work/wanted" ] && is_equal 'the opened packets' "$work/opened" "$work/wanted"
}

# flags_of INPUT: a line a video frame as it is coded, from the first key frame on.
flags_of() {
    ffprobe -v quiet -select_streams "${video:-v}" -show_entries packet=flags -of csv=p=0 "$1" | sed -n '/^K/,$p' | grep -v '^$'
}
count_frames() { flags_of "$1" | wc -l; }
count_key_frames() { flags_of "$1" | grep -c '^K'; }

# decoded FILE: the type of each video frame that ffmpeg decodes, a line each; it may tell no error.
decoded() {
    ffprobe -v error -allowed_extensions ALL -select_streams v -show_entries frame=pict_type -of csv=p=0 "$1" \
        >"$work/frames" 2>"$work/told" || { echo "status $?"; return 1; }
    is_empty "ffmpeg's errors" "$work/told" || return
    sed -i 's/,.*//; /^$/d' "$work/frames"
}

# plays FILE COUNT, plays_iframes FILE COUNT
plays() {
    local count
    decoded "$1" || return
    count=$(wc -l <"$work/frames")
    [ "$count" -eq "$2" ] && [ "$count" -gt 0 ] || { echo "$count frames in place of $2"; return 1; }
}
plays_iframes() {
    plays "$@" || return
    ! grep -v '^I$' "$work/frames"
}

plays_without_repeats() {
    python3 "$here/opened.py" "$work/served" v with_heads | python3 "$here/repeats.py" drop >"$work/once.ts" || return
    plays "$work/once.ts" "$(count_frames "$1")"
}

# in_stretches TEST PLAYLIST COUNT..: the test of each stretch of the playlist, with its count.
in_stretches() {
    local test=$1 playlist=$2 part
    shift 2
    python3 "$here/stretches.py" "$playlist" >"$work/stretches" || return
    [ "$(wc -l <"$work/stretches")" -eq $# ] || { echo "$(wc -l <"$work/stretches") stretches"; return 1; }
    while read -r part; do
        "$test" "$part" "$1" || return
        shift
    done <"$work/stretches"
}

plays_stretches() { in_stretches plays "$work/served/v.m3u8" "$(count_frames "$1")" "$(count_frames "$2")"; }
plays_stretches_of_iframes() {
    in_stretches plays_iframes "$work/served/v.iframes.m3u8" "$(count_key_frames "$1")" "$(count_key_frames "$2")"
}

check_one_options() {
    local bad input=$work/worked/standard.ts base=(one --codecs avc1.4d401e)
    local sized=("${base[@]}" --size 640x360) keyed=("${base[@]}" --keys "$key")
    for bad in '' + 00 "${key}+" "+$key" "$key++$key" "$key+00" "${key%?}g" "$key $key" "$key,$key"; do
        check "one: the keys '$bad'" refuses 2 BadKey "${sized[@]}" --keys "$bad"
    done
    for bad in '' x 640 640x x360 640X360 640x360x1 ' 640x360' '640 x360' 640x-1 6e2x360 18446744073709551616x1 '640×360'; do
        check "one: the size '$bad'" refuses 2 BadSize "${keyed[@]}" --size "$bad"
    done
    check 'one: a bad key with a bad size' refuses 2 BadKey "${base[@]}" --size 640 --keys 00
    for bad in '' 00 "${salt%?}" "${salt}0" "${salt%?}g" "0x$salt"; do
        check "one: the salt '$bad'" refuses 2 BadVector "${one[@]}" --salt "$bad"
    done
    check 'one: a bad size with a bad salt' refuses 2 BadSize "${keyed[@]}" --size 640 --salt 00
    check 'one: a bad salt with period 0' refuses 2 BadVector "${one[@]}" --salt 00 --period 0
    check 'one: a bad size with period 0' refuses 2 BadSize "${keyed[@]}" --size 640 --period 0
    check 'one: period 0' refuses 1 ZeroPeriod "${one[@]}" --period 0
    check 'one: period 0 with target 0' refuses 1 ZeroPeriod "${one[@]}" --period 0 --target 0
    check_one_limits
    check 'one: no keys' misused "${sized[@]}"
    check 'one: no size' misused "${keyed[@]}"
    check 'one: no codecs' misused one --size 640x360 --keys "$key"
    check 'one: a word too many' misused "${one[@]}" word
    check 'one: help' misused one --help
    for bad in '' x 1.5 18446744073709551616; do
        check "one: the target '$bad'" misused "${one[@]}" --target "$bad"
    done
    check 'one: upper-case keys' packs '768:6.000000 768:3.040000' standard "${sized[@]}" --keys "${key^^}"
}

check_one_limits() {
    local setting
    for setting in 'target 0' 'target 3601' 'target 18446744073709551615' 'segment 0' 'segment 7' \
        'segment 18446744073709551615' 'window 0' 'window 10001' 'frame 0' 'frame 900001' 'gap 0' 'gap 4294967296' \
        'most 0' 'most 1000001' 'program 0' 'program 65536' 'program 65537' 'size 0x1' 'size 1x0' 'size 16385x1' \
        'size 1x16385' 'name ' 'name master' 'name a.b' 'name a/b' 'name a:b' "name $key${key}x" 'codecs ' 'codecs a"b' \
        'codecs é' "codecs $key$key$key${key}x"; do
        check "one: $setting" with_setting "$setting" refuses 1 Settings
    done
    for setting in 'target 3600' 'segment 1' 'window 10000' 'frame 1' 'gap 4294967295' 'most 1000000' 'program 1' \
        'size 1x16384' 'size +1x0007' "name $key$key" 'name Master' 'codecs  ' "codecs $key$key$key$key"; do
        check "one: $setting is taken" with_setting "$setting" agrees "$work/worked/standard.ts"
    done
}

# with_setting 'NAME VALUE' COMMAND..: the command with one under this setting.
with_setting() {
    local name=${1%% *} value=${1#* } words=(one)
    shift
    [ "$name" = codecs ] || words+=(--codecs avc1.4d401e)
    [ "$name" = size ] || words+=(--size 640x360)
    "$@" "${words[@]}" --keys "$key" "--$name" "$value"
}
