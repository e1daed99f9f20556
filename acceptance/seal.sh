# The checks of seal.
# shellcheck shell=bash disable=SC2154

check_seal() {
    local input name zeros=0000000000000000 upper=ABCDEF01ABCDEF01ABCDEF0123456789
    check 'seal: the stored run' prints "$stored" seal "${options[@]}"
    check 'seal: 187 bytes of a packet' from "$work/a_byte_short_of_a_packet.in" prints "$stored" seal "${options[@]}"
    check_command_line seal

    check 'seal: upper-case hex' seals_one "$upper" "$upper" --iv "$upper"
    check 'seal: the sequence number 0' seals_one "$key" $zeros$zeros --seq 0
    check 'seal: a sequence number of eight bytes' seals_one "$key" ${zeros}0102030405060708 --seq 72623859790382856
    check 'seal: the greatest sequence number' seals_one "$key" ${zeros}ffffffffffffffff --seq 18446744073709551615
    check 'seal: a sequence number with zeros before' seals_one "$key" ${zeros}0000000000000007 --seq 0007
    check 'seal: a sequence number with a plus' seals_one "$key" ${zeros}0000000000000007 --seq +7

    for input in "$work"/*.in; do
        name=$(basename "$input" .in)
        check "seal: ${name//_/ }" seals "$input"
    done
    check 'seal: forty stirred streams' seals_each "$work"/*.stirred
    check 'seal: a stream in uneven pieces' seals_in_pieces
    check 'seal: 20 MB' seals_large
    check 'seal: noise before leaves the sample' noise_leaves_the_sample
    check 'seal: ffmpeg reads the opened sample as the sample' ffmpeg_agrees "$work/sample.in"
    check 'seal: ffmpeg reads the opened sample behind noise as the sample' ffmpeg_agrees "$work/noise_before.in"
    check_failing_ends seal "$work/sample.in" "$work/repeated.big"
    check 'seal: each allocation refused in turn' tells_no_memory writes_nothing "$work/sample.in" seal "${options[@]}"
}

# seals_one KEY VECTOR OPTIONS..: one packet under the options is what openssl makes of it.
seals_one() {
    local a_key=$1 a_vector=$2 wanted
    shift 2
    wanted=$(openssl_seals "$a_key" "$a_vector" <"$work/one_packet.in" | line_of)
    from "$work/one_packet.in" prints "$wanted" seal --key "$a_key" "$@"
}

# opened: what the program seals of standard input, opened by openssl, in the file plain.
opened() {
    writes seal "${options[@]}" || return
    bytes_of <"$work/out" >"$work/sealed" && openssl_opens "$key" "$vector" <"$work/sealed" >"$work/plain"
}

seals() {
    from "$1" opened && packets_of <"$1" >"$work/packets" && is_equal 'the opened bytes' "$work/plain" "$work/packets"
}

seals_each() {
    local input
    for input in "$@"; do
        seals "$input" || { echo "in $(basename "$input")"; return 1; }
    done
}

seals_in_pieces() {
    local input=$work/byte_lost.in
    python3 "$here/pieces.py" "$input" | opened || return
    packets_of <"$input" >"$work/packets" && is_equal 'the opened bytes' "$work/plain" "$work/packets"
}

seals_large() {
    from "$work/repeated.big" opened && is_equal 'the opened bytes' "$work/plain" "$work/repeated.big"
}

noise_leaves_the_sample() {
    from "$work/noise_before.in" opened && is_equal 'the opened bytes' "$work/plain" "$sample"
}

frames_of() { ffmpeg -nostdin -v error -i "$1" -map 0 -c copy -f framemd5 -; }

ffmpeg_agrees() {
    from "$1" opened && frames_of "$work/plain" >"$work/frames" && frames_of "$sample" >"$work/wanted" || return
    [ "$(grep -c '^[01],' "$work/wanted")" -gt 100 ] || { echo 'ffmpeg finds few frames in the sample'; return 1; }
    is_equal "ffmpeg's frames" "$work/frames" "$work/wanted"
}
