# The checks of what bash completes: the file that samples/completions makes from --help, in a bash of its own.
# shellcheck shell=bash disable=SC2154

# completes WORD..: what is offered for the last word, a line each, in the order of their names.
completes() {
    bash --norc --noprofile -c '
        . "$1/tshls" && complete -p tshls >"$1/told" || exit
        cd "$1" || exit
        shift
        COMP_WORDS=("$@") COMP_CWORD=$(($# - 1)) COMPREPLY=()
        _tshls
        printf "%s\n" "${COMPREPLY[@]}" | sort' _ "$work/completions" "$@"
}

# offers WANTED WORD..: the words of WANTED, and no others.
offers() {
    local wanted=$1 got
    shift
    got=$(completes "$@" | paste -sd ' ')
    [ "$got" = "$wanted" ] || { echo "'$*' is completed by '$got' and not '$wanted'"; return 1; }
}

# completions_tell: each command, each of its options, and what the values of these are.
completions_tell() {
    local command words folder=$work/completions
    rm -rf "$folder"
    mkdir "$folder"
    "$here/../samples/completions" "$program" "$folder" || return 1
    bash -n "$folder/tshls" || return 1
    mkdir "$folder/hls" && touch "$folder/hd.key" "$folder/a stream.ts" || return 1
    offers '--help --version check help one open pack seal' tshls '' || return 1
    offers 'one open' tshls o || return 1
    offers 'pack' tshls help p || return 1
    for command in seal open one pack check; do
        "$program" "$command" --help >"$work/help" 2>&1
        words=$(sed -n '/^Options:/,/^$/p' "$work/help" | sed -n 's/^  \(-[A-Za-z],\)\? *\(--[a-z]*\).*/\2/p' | sort | paste -sd ' ')
        [ -n "$words" ] || { echo "the help of $command has no options"; return 1; }
        offers "$words" tshls $command -- || return 1
    done
    offers '--target' tshls pack --out hls --ta || return 1
    offers 'hls' tshls pack --out '' || return 1
    offers 'hls' tshls pack --out = h || return 1
    offers 'hd.key hls' tshls pack --metrics h || return 1
    offers '' tshls pack --target '' || return 1
    offers 'a stream.ts' tshls pack --out hls v : avc1.64001e : 320x180 : 00 : a || return 1
    offers '@hd.key' tshls pack --out hls v : avc1.64001e : 320x180 :@ hd || return 1
    offers '@hd.key' tshls seal --key @ hd || return 1
    offers '@hd.key' tshls seal --key @hd || return 1
    offers '@hls/' tshls check --keys =@ hl || return 1
    offers '' tshls seal --iv '' || return 1
    offers 'a stream.ts' tshls check --keys 00 a
}
