# The checks of pack: of files as they are, and the summary. Those of how it begins and ends stand in files of their own.
# shellcheck shell=bash disable=SC2154

ladder_of_one=v:avc1.4d401e:640x360:$key

check_pack() {
    check_packing
    check_pack_ends
    check_no_threads
    check_stops
    check_restarts
    check_holding
    check_written_ahead
    check_served_ladder
    check_live_ladder
    check_metrics
}

check_packing() {
    [ -d "$work/worked" ] || check 'pack: the worked inputs are made' python3 "$here/standard_stream.py" "$work/worked"
    [ -d "$work/real" ] || check 'pack: the real streams are made' make_real_streams "$work/real"
    check 'pack: the standard stream' gives_standard_summary
    check 'pack: check reads it back' prints 'ok 2 752' check --keys "$key" "$work/ladder/v.m3u8"
    check 'pack: the renditions by name' prints_by_name
    check 'pack: names that are escaped' packs_ladder -- "hd 50%:avc1.4d401e:640x360:$key:$work/worked/standard.ts" \
        "ü:avc1.4d401e:320x180:$key:$work/worked/five_segments.ts"
    check 'pack: a path with colons' packs_path_with_colons
    check 'pack: an older file is replaced, another is left' replaces_older_files_of_its_names
    check_ladders
    check_entries
    check_pack_settings
}

# packs_into FOLDER WORDS..: into a new folder, and the program tells no fault.
packs_into() {
    local folder=$1
    shift
    rm -rf "$folder" && mkdir "$folder" && writes pack --out "$folder" "$@"
}

gives_standard_summary() {
    packs_into "$work/ladder" "$ladder_of_one:$work/worked/standard.ts" || return
    is_line 'standard output' "$work/out" 'v 2 9.040000 2022 1360'
}

# is_same_folder FOLDER WANTED
is_same_folder() {
    diff -r "$1" "$2" >"$work/difference" 2>&1 && return
    head -c 300 "$work/difference"
    return 1
}

# packs_ladder OPTIONS.. -- ENTRIES..: the folder, the summary and the fault are those of the rules.
packs_ladder() {
    local options=() status=0 wanted_status=0
    while [ "$1" != -- ]; do
        options+=("$1")
        shift
    done
    shift
    rm -rf "$work/ladder" "$work/wanted_ladder"
    python3 "$here/ladder.py" "$work/wanted_ladder" $(without_pool "${options[@]}") "$@" >"$work/wanted" 2>"$work/wanted_fault" ||
        wanted_status=$?
    mkdir "$work/ladder"
    timeout 120 "$program" pack --out "$work/ladder" "${options[@]}" "$@" >"$work/out" 2>"$work/err" || status=$?
    [ $status -eq $wanted_status ] || { echo "status $status in place of $wanted_status, $(cat "$work/err")"; return 1; }
    # faults are told as they stand, so in any order
    sort -o "$work/err" "$work/err" && sort -o "$work/wanted_fault" "$work/wanted_fault" || return
    is_equal 'standard error' "$work/err" "$work/wanted_fault" && is_equal 'standard output' "$work/out" "$work/wanted" &&
        is_same_folder "$work/ladder" "$work/wanted_ladder"
}

# without_pool OPTIONS..: those that say what is packed, without those of how.
without_pool() {
    while [ $# -gt 0 ]; do
        case $1 in
        --workers | --queue | --batch) shift ;;
        *) echo "$1" ;;
        esac
        shift
    done
}

prints_by_name() {
    packs_into "$work/ladder" "b:avc1.4d401e:640x360:$key:$work/worked/standard.ts" \
        "a:avc1.4d401e:640x360:$key:$work/worked/seven_segments.ts" || return
    is_equal 'standard output' "$work/out" - <<'LINES'
a 7 42.000000 1024 805
b 2 9.040000 2022 1360
LINES
}

packs_path_with_colons() {
    cp "$work/worked/standard.ts" "$work/a:b::c.ts" && packs_ladder -- "$ladder_of_one:$work/a:b::c.ts"
}

replaces_older_files_of_its_names() {
    rm -rf "$work/ladder" && mkdir "$work/ladder" || return
    echo older >"$work/ladder/v.m3u8" && echo other >"$work/ladder/w.m3u8" && echo later >"$work/ladder/v.2.ts" || return
    writes pack --out "$work/ladder" "$ladder_of_one:$work/worked/standard.ts" || return
    grep -q ENDLIST "$work/ladder/v.m3u8" || { echo 'the older file stands'; return 1; }
    has 'master.m3u8 v.0.ts v.1.ts v.2.ts v.iframes.m3u8 v.m3u8 w.m3u8' "$work/ladder"
}

# The folders of one and of three renditions, by so many workers and segments on their way.
check_ladders() {
    local workers queue batch real=$work/real keys=$key+$second_key
    for workers in 1 2 4 16 64; do
        for queue in 1 2 16 256; do
            check "pack: seven segments, $workers workers, queue $queue" packs_ladder --window 3 --workers "$workers" \
                --queue "$queue" -- "$ladder_of_one:$work/worked/seven_segments.ts"
        done
    done
    for batch in 1 3 256; do
        check "pack: rounds of $batch" packs_ladder --window 3 --batch "$batch" -- "$ladder_of_one:$work/worked/seven_segments.ts"
    done
    for workers in 1 4; do
        check "pack: a ladder of three, $workers workers" packs_ladder --target 2 --workers "$workers" -- \
            "high:avc1.64001f,mp4a.40.2:1280x720:$keys:$real/h264.ts" "mid:hvc1.1.6.L93:640x360:$key:$real/hevc.ts" \
            "low:mp4v.20.9:320x180:$second_key:$real/jump.ts"
        check "pack: one under a salt, an event, $workers workers" packs_ladder --target 2 --workers "$workers" --event --salt "$salt" \
            -- "v:avc1.4d401e:640x360:$keys:$real/looped.ts" "w:avc1.4d401e:640x360:$key:$real/h264.ts"
    done
    check 'pack: 32 renditions' packs_many 32
    check 'pack: 33 renditions' refuses_many 33
}

# entries_of COUNT: so many renditions of the standard stream.
entries_of() {
    local number
    for ((number = 0; number < $1; number++)); do
        echo "r$number:avc1.4d401e:640x360:$key:$work/worked/standard.ts"
    done
}
packs_many() {
    local entries
    mapfile -t entries < <(entries_of "$1")
    packs_ladder -- "${entries[@]}"
}
refuses_many() {
    local entries
    mapfile -t entries < <(entries_of "$1")
    refuses_to_pack 1 Settings "${entries[@]}"
}

# refuses_to_pack STATUS FAULT WORDS..: nothing is put.
refuses_to_pack() {
    local status=$1 fault=$2
    shift 2
    rm -rf "$work/ladder" && mkdir "$work/ladder" && refuses "$status" "$fault" pack --out "$work/ladder" "$@" &&
        rmdir "$work/ladder"
}

check_entries() {
    local bad good=$ladder_of_one:$work/worked/standard.ts
    for bad in '' v "v:c:640x360:$key" "v:c:640:$key:p" "v:c:640x360:00:p" "v:c:640x360:$key+:p" ":::::" "v:c: 640x360:$key:p"; do
        check "pack: the entry '$bad'" refuses_to_pack 2 'BadEntry 1' "$bad"
        check "pack: the entry '$bad' behind a good one" refuses_to_pack 2 'BadEntry 2' "$good" "$bad" x
    done
    check 'pack: a bad entry with a bad salt' refuses_to_pack 2 'BadEntry 1' --salt 00 v
    check 'pack: a bad salt with period 0' refuses_to_pack 2 BadVector --salt 00 --period 0 "$good"
    check 'pack: no entry' misused pack --out "$work"
    check 'pack: no folder' misused pack "$good"
    check 'pack: help' misused pack --help
    check "pack: a path that isn't there" refuses_to_pack 1 Unread "$good" "w:c:1x1:$key:$work/absent.ts"
    check 'pack: an empty path' refuses_to_pack 1 Unread "$ladder_of_one:"
}

check_pack_settings() {
    local setting good=$ladder_of_one:$work/worked/standard.ts
    check 'pack: period 0 with target 0' refuses_to_pack 1 ZeroPeriod --period 0 --target 0 "$good"
    for setting in 'target 0' 'segment 7' 'window 0' 'workers 0' 'workers 65' 'queue 0' 'queue 257' 'batch 0' 'batch 257' \
        'workers 18446744073709551615' 'queue 18446744073709551615' 'program 65536'; do
        check "pack: $setting" refuses_to_pack 1 Settings --"${setting% *}" "${setting#* }" "$good"
    done
    check 'pack: two renditions of one name' refuses_to_pack 1 Settings "$good" "$good"
    check 'pack: a name with a point' refuses_to_pack 1 Settings "v.w:c:1x1:$key:$work/absent.ts"
    check 'pack: no codecs' refuses_to_pack 1 Settings "v::1x1:$key:$work/absent.ts"
    check 'pack: a size without a side' refuses_to_pack 1 Settings "v:c:0x1:$key:$work/absent.ts"
}
