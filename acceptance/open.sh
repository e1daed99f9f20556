# The checks of open.
# shellcheck shell=bash disable=SC2154

check_open() {
    local input name
    check 'open: the stored line' opens_text "$stored"$'\n' ''
    check 'open: the stored line under another vector' reads "$stored" refuses 1 BadPadding open --key "$key" --seq 0
    check_command_line open

    check 'open: no LF at the end' opens_text "$stored" ''
    check 'open: upper-case digits' opens_text "${stored^^}"$'\n' ''
    check 'open: upper-case key and vector' reads "$stored" prints '' open --key "${key^^}" --iv "${vector^^}"
    check 'open: the greatest sequence number' opens_sequence 18446744073709551615 0000000000000000ffffffffffffffff

    check 'open: no input' refuses_text NotBlocks ''
    check 'open: a lone LF' refuses_text NotBlocks $'\n'
    check 'open: a byte' refuses_text NotBlocks $'00\n'
    check 'open: a byte less than a block' refuses_text NotBlocks "${stored%??}"$'\n'
    check 'open: a byte more than a block' refuses_text NotBlocks "${stored}00"$'\n'

    check 'open: one digit' refuses_text BadHex 6
    check 'open: an odd number of digits' refuses_text BadHex "${stored%?}"$'\n'
    check 'open: a letter that is no digit' refuses_text BadHex "${stored%?}g"$'\n'
    check 'open: a plus in place of a digit' refuses_text BadHex "+${stored#?}"$'\n'
    check 'open: a letter beyond ASCII' refuses_text BadHex "${stored%??}é"$'\n'
    check 'open: a blank before' refuses_text BadHex " $stored"$'\n'
    check 'open: two blanks behind' refuses_text BadHex "$stored  "$'\n'
    check 'open: CR LF' refuses_text BadHex "$stored"$'\r\n'
    check 'open: a second LF' refuses_text BadHex "$stored"$'\n\n'
    check 'open: two LFs alone' refuses_text BadHex $'\n\n'
    check 'open: an LF before' refuses_text BadHex $'\n'"$stored"$'\n'
    check 'open: a second line' refuses_text BadHex "$stored"$'\n'"$stored"$'\n'
    printf '%s\0\0\n' "${stored%??}" >"$work/zero_bytes.line"
    check 'open: zero bytes' from "$work/zero_bytes.line" refuses 1 BadHex open "${options[@]}"

    check 'open: padding of 1' opens_block 000000000000000000000000000000 01
    check 'open: padding of 15' opens_block 00 0f0f0f0f0f0f0f0f0f0f0f0f0f0f0f
    check 'open: padding of 2 behind a 2' opens_block 0000000000000000000000000002 0202
    check 'open: padding of 0' refuses_block 00000000000000000000000000000000
    check 'open: padding of 17' refuses_block 11111111111111111111111111111111
    check 'open: padding of 255' refuses_block ffffffffffffffffffffffffffffffff
    check 'open: a wrong first byte of 16' refuses_block 0f101010101010101010101010101010
    check 'open: a wrong byte in the padding' refuses_block 00000000000000000000000004040504
    check 'open: one byte of two' refuses_block 00000000000000000000000000000002

    for input in "$work"/*.in; do
        name=$(basename "$input" .in)
        check "open: ${name//_/ }" opens "$input"
    done
    check 'open: what seal printed' opens_what_seal_printed "$work/noise_before.in"
    check 'open: a line in uneven pieces' opens_in_pieces
    check 'open: 20 MB' opens "$work/repeated.big"

    sealed_line <"$sample" >"$work/sample.line"
    sealed_line <"$work/repeated.big" >"$work/large.line"
    check_failing_ends open "$work/sample.line" "$work/large.line"
    check 'open: each allocation refused in turn' tells_no_memory writes_nothing "$work/sample.line" open "${options[@]}"
}

# opens_text TEXT PLAIN, refuses_text NAME TEXT
opens_text() { reads "$1" prints "$2" open "${options[@]}"; }
refuses_text() { reads "$2" refuses 1 "$1" open "${options[@]}"; }

# block HEX: the line of a block as it is, with no padding added.
block() { echo "$1" | bytes_of | openssl enc -aes-128-cbc -nopad -K "$key" -iv "$vector" | line_of; }
opens_block() { opens_text "$(block "$1$2")"$'\n' "$1"; }
refuses_block() { refuses_text BadPadding "$(block "$1")"$'\n'; }

# opens_sequence NUMBER VECTOR
opens_sequence() {
    local line wanted
    line=$(openssl_seals "$key" "$2" <"$work/one_packet.in" | line_of)
    wanted=$(line_of <"$work/one_packet.in")
    reads "$line" prints "$wanted" open --key "$key" --seq "$1"
}

sealed_line() { openssl_seals "$key" "$vector" | line_of; }

# opens_to FILE: standard input opens to the line of the file's bytes.
opens_to() {
    writes open "${options[@]}" && line_of <"$1" >"$work/wanted" && is_equal 'the opened line' "$work/out" "$work/wanted"
}

# opens FILE: the file's bytes, sealed by openssl.
opens() { sealed_line <"$1" >"$work/line" && from "$work/line" opens_to "$1"; }

opens_in_pieces() {
    sealed_line <"$sample" >"$work/line"
    python3 "$here/pieces.py" "$work/line" | opens_to "$sample"
}

opens_what_seal_printed() {
    from "$1" writes seal "${options[@]}" || return
    cp "$work/out" "$work/line"
    packets_of <"$1" >"$work/packets"
    from "$work/line" opens_to "$work/packets"
}
