# The checks of the lock on a folder, and of what a terminal is told.
# shellcheck shell=bash disable=SC2154

check_holding() {
    check 'pack: a second packager of a folder is turned away, until the first is gone' holds_its_folder
    check 'pack: a fault is explained at a terminal' explains_at_a_terminal
    check 'one: a fault is one line where nobody reads it' refuses 1 Settings one --codecs c --size 1x1 --keys "$key" --target 0
}

# is_held FOLDER: somebody locked it; waits for that up to ten seconds. It reads the system's list of locks, since
# whoever tries the lock holds it for a moment, and a packager that starts in that moment is told Busy.
is_held() {
    local try inode
    inode=$(stat -c %i "$1")
    for try in $(seq 100); do
        grep -qE "^[0-9]+: FLOCK .*:$inode 0 EOF\$" /proc/locks && return
        sleep 0.1
    done
    echo "$1 is not locked after $try tries"
    return 1
}

holds_its_folder() {
    local folder=$work/held first why
    rm -rf "$folder" "$work/silent.fifo"
    mkdir "$folder" && mkfifo "$work/silent.fifo" || return
    timeout 60 "$program" pack --out "$folder" "$ladder_of_one:$work/silent.fifo" >"$work/first" 2>&1 &
    first=$!
    exec 9<>"$work/silent.fifo"
    why=$(is_held "$folder" && refuses 1 Busy pack --out "$folder" "$ladder_of_one:$work/worked/standard.ts" &&
        [ "$(ls -A "$folder")" = .tshls-ahead ]) || why="${why:-the folder has files}"
    exec 9>&-
    pkill -KILL -P $first
    wait $first 2>"$work/killed"
    [ -z "$why" ] || { echo "$why"; return 1; }
    writes pack --out "$folder" "$ladder_of_one:$work/worked/standard.ts"
}

# At a terminal there is a second line; keys are in neither.
explains_at_a_terminal() {
    local said
    said=$(script -qec "$program pack --out $work --segment 7 $ladder_of_one:x" "$work/typescript" </dev/null | tr -d '\r')
    [ "$said" = $'tshls: Settings\n  --segment is outside its range, 1 second to the target' ] && return
    echo "a terminal is told '$said'"
    return 1
}
