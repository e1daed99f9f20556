# Streams that ffmpeg makes on the spot: from its own test sources, no file, no network.
# shellcheck shell=bash disable=SC2154

# make_real_streams FOLDER
make_real_streams() (
    mkdir -p "$1" && cd "$1" || exit
    length=6
    sources=(-f lavfi -i "testsrc2=size=320x180:rate=25:duration=$length"
        -f lavfi -i "sine=frequency=440:sample_rate=48000:duration=$length")
    h264=(-c:v libx264 -preset veryfast -pix_fmt yuv420p -g 50 -keyint_min 50 -sc_threshold 0 -bf 3 -threads 1)
    hevc=(-c:v libx265 -preset ultrafast -pix_fmt yuv420p
        -x265-params log-level=error:keyint=50:min-keyint=50:scenecut=0)
    aac=(-c:a aac -b:a 64k)

    muxed h264.ts "${sources[@]}" "${h264[@]}" "${aac[@]}"
    muxed hevc.ts "${sources[@]}" "${hevc[@]}" "${aac[@]}"
    muxed mpeg2.ts "${sources[@]}" -c:v mpeg2video -g 15 -bf 2 -b:v 1M -c:a mp2
    copied wrap.ts h264.ts -output_ts_offset 95439
    copied later.ts h264.ts -output_ts_offset 1000
    cat h264.ts later.ts >jump.ts
    cat later.ts h264.ts >jump_back.ts
    cat h264.ts h264.ts >looped.ts
    copied hevc_behind.ts hevc.ts -output_ts_offset $length
    cat h264.ts hevc_behind.ts >h264_then_hevc.ts
    copied constant_rate.ts h264.ts -muxrate 3M
    copied service_tables.ts h264.ts -mpegts_flags +nit
    tail -c +$((188 * 200 + 1)) h264.ts >begins_in_the_middle.ts
    copied two_programs.ts h264.ts -i mpeg2.ts -map 1 -program program_num=3:st=0:st=1 -program program_num=7:st=2:st=3
    many_tracks=()
    for track in {0..23}; do
        many_tracks+=(-map 0:a -metadata:s:a:"$track" language=eng)
    done
    muxed long_pmt.ts -i h264.ts -map 0:v "${many_tracks[@]}" -c copy
    for pid in 0x1000 0x101 0x100; do
        python3 "$here/repeats.py" make $pid <h264.ts >doubled_$pid.ts || exit
    done
)

# muxed FILE OPTIONS..
muxed() {
    local file=$1
    shift
    ffmpeg -nostdin -v error "$@" -f mpegts "$file" || exit
}

# copied FILE INPUT OPTIONS..
copied() {
    local file=$1 input=$2
    shift 2
    muxed "$file" -i "$input" "$@" -map 0 -c copy
}
