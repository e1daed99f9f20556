# Runs in which one allocation is refused: the first, then the second, up to a run that asks for no more.
# shellcheck shell=bash disable=SC2154

# tells_no_memory JUDGE INPUT WORDS..: with no memory the program ends with NoMemory or the whole answer. JUDGE looks at
# what it wrote before NoMemory.
tells_no_memory() {
    local judge=$1 input=$2 number status
    shift 2
    from "$input" writes "$@" || return
    mv "$work/out" "$work/whole"
    cc -shared -fPIC -o "$work/refuse_memory.so" "$here/refuse_memory.c" -ldl || return
    for ((number = 1; number <= 5000; number++)); do
        status=0
        rm -f "$work/was_refused"
        REFUSED=$number MARK=$work/was_refused LD_PRELOAD=$work/refuse_memory.so \
            timeout 120 "$program" "$@" <"$input" >"$work/out" 2>"$work/err" || status=$?
        case "$status $(cat "$work/err")" in
        '0 ') is_equal 'standard output' "$work/out" "$work/whole" ;;
        '1 tshls: NoMemory') "$judge" ;;
        '1 tshls: Outlet') [ "$1" = one ] && "$judge" ;;
        *) echo "status $status, $(cat "$work/err")"; false ;;
        esac || { echo "at allocation $number"; return 1; }
        [ -e "$work/was_refused" ] && continue
        [ "$number" -gt 1 ] && [ "$status" -eq 0 ] && return
        echo "allocation $number wasn't refused, status $status"
        return 1
    done
    echo 'more than 5,000 allocations'
    return 1
}

# writes_nothing, writes_a_beginning: what there may be on standard output.
writes_nothing() { is_empty 'standard output' "$work/out"; }

writes_a_beginning() {
    cmp -s -n "$(wc -c <"$work/out")" "$work/out" "$work/whole" || { echo 'not a beginning'; return 1; }
}
