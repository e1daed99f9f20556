# Runs of pack in which one thread can't be started: the first, then the second, up to a run that starts no more.
# shellcheck shell=bash disable=SC2154

check_no_threads() {
    cc -shared -fPIC -o "$work/refuse_thread.so" "$here/refuse_thread.c" -ldl || return
    check 'pack: each thread refused in turn, 1 worker' packs_without_a_thread 1
    check 'pack: each thread refused in turn, 2 workers' packs_without_a_thread 2
    check 'pack: each thread refused in turn, 4 workers' packs_without_a_thread 4
}

# packs_without_a_thread WORKERS: the program tells want of memory and ends, so that no thread is waited for that never
# was; what lies in the folder is read back.
packs_without_a_thread() {
    local workers=$1 number name status told stream=$work/worked/seven_segments.ts
    local words=(pack --workers "$workers" --batch 1 --out "$work/ladder" "a:c:1x1:$key:$stream" "$ladder_of_one:$stream")
    for ((number = 1; number <= 200; number++)); do
        status=0
        rm -rf "$work/was_refused" "$work/ladder" && mkdir "$work/ladder"
        REFUSED_THREAD=$number MARK=$work/was_refused LD_PRELOAD=$work/refuse_thread.so timeout 60 "$program" "${words[@]}" >"$work/out" 2>"$work/err" || status=$?
        if [ ! -e "$work/was_refused" ]; then
            [ $status -eq 0 ] && [ "$number" -gt "$workers" ] && return
            echo "thread $number wasn't refused, status $status"
            return 1
        fi
        told="$status $(cat "$work/err")"
        if [ "$told" != '1 tshls: NoMemory' ] || [ -s "$work/out" ]; then
            echo "at thread $number: status $told"
            return 1
        fi
        for name in a v; do
            [ ! -e "$work/ladder/$name.m3u8" ] || writes check --keys "$key" "$work/ladder/$name.m3u8" || { echo "at thread $number"; return 1; }
        done
    done
    echo 'more than 200 threads'
    return 1
}
