# A standard input that can't be read, and standard outputs that can't be written. The variables unread and unwritten
# name the faults of commands that tell others.
# shellcheck shell=bash disable=SC2154

# check_failing_ends COMMAND INPUT LARGE_INPUT
check_failing_ends() {
    local command=$1 input=$2 large=$3
    check "$command: a standard input that can't be read" from "$here" refuses 1 "${unread:-Unread}" "$command" "${options[@]}"
    check "$command: a full standard output" writes_to_full "$command" "$input"
    check "$command: a full standard output, much to write" writes_to_full "$command" "$large"
    check "$command: a closed pipe" writes_to_closed_pipe "$command" "$input"
    check "$command: a pipe that closes on the way" writes_to_closing_pipe "$command" "$large"
}

writes_to_full() {
    local status
    timeout 120 "$program" "$1" "${options[@]}" <"$2" >/dev/full 2>"$work/err"
    status=$?
    [ $status -eq 1 ] || { echo "status $status"; return 1; }
    is_line 'standard error' "$work/err" "tshls: ${unwritten:-Unwritten}"
}

writes_to_closed_pipe() {
    { sleep 0.3; timeout 120 "$program" "$1" "${options[@]}" <"$2" 2>"$work/err"; } | true
    is_unwritten_or_signalled "${PIPESTATUS[0]}"
}

writes_to_closing_pipe() {
    timeout 120 "$program" "$1" "${options[@]}" <"$2" 2>"$work/err" | head -c 100 >"$work/out"
    is_unwritten_or_signalled "${PIPESTATUS[0]}"
}

# is_unwritten_or_signalled STATUS: the program told it, or SIGPIPE ended it.
is_unwritten_or_signalled() {
    case $1 in
    1) is_line 'standard error' "$work/err" "tshls: ${unwritten:-Unwritten}" ;;
    141) is_empty 'standard error' "$work/err" ;;
    *) echo "status $1, standard error '$(cat "$work/err")'"; return 1 ;;
    esac
}
