# The checks of keys that are given as @FILE: what they do is what their digits do, and no list of processes shows a key.
# shellcheck shell=bash disable=SC2154

check_key_files() {
    [ -d "$work/worked" ] || check 'key files: the worked inputs are made' python3 "$here/standard_stream.py" "$work/worked"
    check 'key files: they are made' make_key_files "$work/keys"
    check_good_key_files
    check_bad_key_files
    check_key_files_first
    check 'key files: a FIFO' reads_key_from_fifo
    check 'key files: a FIFO without a writer is waited for, and nothing is written' waits_for_a_key
    check 'key files: no key is in ps, nor in what /proc tells of the process' shows_no_key
    check 'key files: each allocation of check refused in turn' \
        tells_no_memory writes_nothing /dev/null check --keys "@$work/keys/raw+@$work/keys/line" "$work/hls/v.m3u8"
}

# make_key_files FOLDER: the key in each form that is taken, another, and files that are no key.
make_key_files() {
    rm -rf "$1" && mkdir "$1" && python3 - "$1" "$key" "$vector" <<'PYTHON'
import sys
folder, digits, other = sys.argv[1:]
key = bytes.fromhex(digits)
text = digits.encode()
files = {
    "raw": key, "hex": text, "line": text + b"\n", "upper": text.upper() + b"\n", "other": bytes.fromhex(other),
    "lf": bytes([10] * 16), "empty": b"", "15": key[:15], "17": key + b"\n", "31": text[:31], "33": text + b"0",
    "two": text + b"\n\n", "crlf": text + b"\r\n", "front": b"\n" + text, "spaces": text[:2] + b" " + text[2:31],
    "blank": text + b" ", "0x": b"0x" + text[:30], "no digit": text[:31] + b"g", "mark": b"\xef\xbb\xbf" + text[:29],
}
for name, held in files.items():
    with open(f"{folder}/{name}", "wb") as file:
        file.write(held)
PYTHON
}

# is_as_digits FORM: each command gives with the key in this file what it gives with digits.
is_as_digits() {
    local file=@$work/keys/$1 standard=$work/worked/standard.ts
    local one=(one --codecs avc1.4d401e --size 640x360 --keys)
    prints "$stored" seal --key "$file" --iv "$vector" || return
    reads "$stored" prints '' open --key "$file" --iv "$vector" || return
    prints 'ok 2 752' check --keys "$file" "$work/hls/v.m3u8" || return
    from "$standard" writes "${one[@]}" "$key+$vector+$key" && mv "$work/out" "$work/by_digits" || return
    from "$standard" writes "${one[@]}" "$file+@$work/keys/other+$key" || return
    is_equal 'standard output' "$work/out" "$work/by_digits" || return
    packs_into "$work/by_digits.d" "v:avc1.4d401e:640x360:$key:$standard" "w:avc1.4d401e:640x360:$vector+$key:$standard" || return
    packs_into "$work/by_file.d" "v:avc1.4d401e:640x360:$file:$standard" \
        "w:avc1.4d401e:640x360:@$work/keys/other+$file:$standard" && is_same_folder "$work/by_file.d" "$work/by_digits.d"
}

check_good_key_files() {
    local form
    check 'key files: a folder is made' make_standard_folder "$work/hls"
    for form in raw hex line upper; do
        check "key files: $form" is_as_digits "$form"
    done
    check 'key files: 16 line ends are 16 bytes' ends 0 seal --key "@$work/keys/lf" --seq 0
}

# tells_of_key FAULT FILE: each command tells this of a file, and pack by the number of its entry.
tells_of_key() {
    local fault=$1 file=@$work/keys/$2 standard=$work/worked/standard.ts second=$1 third=$1
    [ "$fault" = BadKeyFile ] && fault='BadKeyFile 1' second='BadKeyFile 2' third='BadKeyFile 3'
    refuses 1 "$fault" seal --key "$file" --seq 0 && refuses 1 "$fault" open --key "$file" --seq 0 || return
    refuses 1 "$second" check --keys "$key+$file" "$work/hls/v.m3u8" || return
    refuses 1 "$third" one --codecs avc1.4d401e --size 640x360 --keys "$key+$key+$file" || return
    rm -rf "$work/unpacked" && mkdir "$work/unpacked" || return
    refuses 1 "$second" pack --out "$work/unpacked" "v:avc1.4d401e:640x360:$key:$standard" \
        "w:avc1.4d401e:640x360:$key+$key+$file:$work/absent.ts" || return
    [ -z "$(ls -A "$work/unpacked")" ] || { ls -A "$work/unpacked"; return 1; }
}

check_bad_key_files() {
    local bad
    for bad in empty 15 17 31 33 two crlf front spaces blank 0x 'no digit' mark; do
        check "key files: $bad" tells_of_key BadKeyFile "$bad"
    done
    truncate -s 1T "$work/keys/huge"
    check 'key files: a file of a tebibyte' tells_of_key BadKeyFile huge
    check 'key files: /dev/zero' refuses 1 'BadKeyFile 1' seal --key @/dev/zero --seq 0
    check 'key files: /dev/null' refuses 1 'BadKeyFile 1' seal --key @/dev/null --seq 0
    check 'key files: none of this name' tells_of_key Unread absent
    check 'key files: a folder' tells_of_key Unread .
    check 'key files: an @ alone' refuses 2 BadKey seal --key @ --seq 0
    check 'key files: an @ inside a word' refuses 2 BadKey seal --key "a@$work/keys/raw" --seq 0
}

# What is told before a key file is read, and what behind it.
check_key_files_first() {
    local absent=@$work/keys/absent one=(one --codecs avc1.4d401e) unopened=$work/absent.ts
    check 'key files: a bad vector first' refuses 2 BadVector seal --key "$absent" --iv 00
    check 'key files: a bad key first' refuses 2 BadKey check --keys "$absent+00" "$work/hls/v.m3u8"
    check 'key files: a bad size first' refuses 2 BadSize "${one[@]}" --size 640 --keys "$absent"
    check 'key files: a period of 0 first' refuses 1 ZeroPeriod "${one[@]}" --size 640x360 --period 0 --keys "$absent"
    check 'key files: a bad entry first' refuses_to_pack 2 'BadEntry 2' "v:c:1x1:$absent:a" 'w:c:1x1:@:b'
    check 'key files: bad settings of one first' refuses 1 Settings "${one[@]}" --size 640x360 --window 0 --keys "$absent"
    check 'key files: bad settings first' refuses_to_pack 1 Settings --window 0 "v:c:1x1:$absent:$unopened"
    check 'key files: two of one name first' refuses_to_pack 1 Settings "v:c:1x1:$absent:a" "v:c:1x1:$absent:b"
    check 'key files: before a path' refuses_to_pack 1 'BadKeyFile 2' "v:c:1x1:$key:$unopened" "w:c:1x1:@$work/keys/15:$unopened"
    check 'key files: before a playlist' refuses 1 'BadKeyFile 1' check --keys "@$work/keys/15" "$work/absent.m3u8"
}

reads_key_from_fifo() {
    rm -f "$work/key.fifo" && mkfifo "$work/key.fifo" || return
    printf %s "$key" >"$work/key.fifo" &
    prints "$stored" seal --key "@$work/key.fifo" --iv "$vector"
}

waits_for_a_key() {
    local status=0
    rm -rf "$work/waiting" && mkdir "$work/waiting" || return
    timeout 2 "$program" pack --out "$work/waiting" "v:avc1.4d401e:640x360:@$work/key.fifo:$work/worked/standard.ts" \
        >"$work/out" 2>"$work/err" || status=$?
    [ $status -eq 124 ] || { echo "status $status, $(cat "$work/err")"; return 1; }
    is_empty 'standard output' "$work/out" && is_empty 'standard error' "$work/err" || return
    [ -z "$(ls -A "$work/waiting")" ] || { ls -A "$work/waiting"; return 1; }
}

# A packager that waits for its input, whose keys are in files: neither its words nor its environment have a key in any form.
shows_no_key() {
    local pid form shown=$work/shown
    rm -rf "$work/watched" "$work/input.fifo" && mkdir "$work/watched" && mkfifo "$work/input.fifo" || return
    "$program" pack --out "$work/watched" "v:avc1.4d401e:640x360:@$work/keys/raw+@$work/keys/line:$work/input.fifo" \
        >"$work/out" 2>"$work/err" &
    pid=$!
    sleep 1
    { tr '\0' '\n' <"/proc/$pid/cmdline"; tr '\0' '\n' <"/proc/$pid/environ"; ps -ww -o args= -p "$pid"; } >"$shown"
    from "$work/worked/standard.ts" cat >"$work/input.fifo"
    wait "$pid" || { cat "$work/err"; return 1; }
    grep -q keys/raw "$shown" || { echo 'the process was not seen'; return 1; }
    for form in "$key" "${key^^}" AAECAwQFBgcICQoLDA0ODw; do
        ! grep -qF "$form" "$shown" || { echo "$form is shown"; return 1; }
    done
    ! grep -qP '\x01\x02\x03\x04\x05\x06\x07' "$shown" || { echo 'the bytes are shown'; return 1; }
    prints 'ok 2 752' check --keys "@$work/keys/raw+@$work/keys/line" "$work/watched/v.m3u8"
}
