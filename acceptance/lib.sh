# What the checks share. The driver sets program, here, sample and work.
# shellcheck shell=bash disable=SC2154,SC2034

key=000102030405060708090a0b0c0d0e0f
vector=10013223544576679889baabdccdfeef
options=(--key "$key" --iv "$vector")
# Nothing but the padding, sealed under these options.
stored=69c4e0d86a7b0430d8cdb78070b4c55a

passed=0
failed=0

# check NAME COMMAND..: what the command prints is the reason where it fails.
check() {
    local name=$1 why
    shift
    if why=$("$@" 2>&1 </dev/null); then
        echo "ok $name"
        passed=$((passed + 1))
    else
        echo "FAILED $name: $(tr '\n' ' ' <<<"$why" | cut -c1-300)"
        failed=$((failed + 1))
    fi
}

# ends STATUS ARGS..: runs the program, its two outputs kept in files.
ends() {
    local wanted=$1 status
    shift
    timeout 120 "$program" "$@" >"$work/out" 2>"$work/err"
    status=$?
    [ "$status" -eq "$wanted" ] && return
    echo "status $status in place of $wanted, standard error '$(head -c 200 "$work/err")'"
    return 1
}

# is_line WHAT FILE TEXT: the file is the text and one LF.
is_line() {
    printf '%s\n' "$3" | cmp -s - "$2" && return
    echo "$1 is $(wc -c <"$2") bytes, '$(head -c 80 "$2")', and not the line '${3:0:80}'"
    return 1
}

# is_empty WHAT FILE
is_empty() {
    [ ! -s "$2" ] && return
    echo "$1 has '$(head -c 200 "$2")'"
    return 1
}

# is_equal WHAT FILE WANTED
is_equal() {
    cmp "$2" "$3" >"$work/difference" 2>&1 && return
    echo "$1: $(cat "$work/difference")"
    return 1
}

# writes ARGS..: the program ends well and tells nothing.
writes() {
    ends 0 "$@" && is_empty 'standard error' "$work/err"
}

# prints TEXT ARGS..: the program ends well, with the text as its one line.
prints() {
    local text=$1
    shift
    writes "$@" && is_line 'standard output' "$work/out" "$text"
}

# refuses STATUS NAME ARGS..: the program tells this fault and writes nothing.
refuses() {
    local status=$1 name=$2
    shift 2
    ends "$status" "$@" && is_empty 'standard output' "$work/out" && is_line 'standard error' "$work/err" "tshls: $name"
}

# turned_away ARGS..: the command line is refused, in whatever words.
turned_away() {
    ends 2 "$@" && is_empty 'standard output' "$work/out" || return
    [ -s "$work/err" ] || { echo 'nothing on standard error'; return 1; }
}

# misused ARGS..: it is refused by its parser, not for a key or a vector.
misused() {
    turned_away "$@" || return
    ! grep '^tshls: Bad' "$work/err"
}

# from FILE COMMAND..
from() {
    local file=$1
    shift
    "$@" <"$file"
}

# reads TEXT COMMAND..
reads() {
    local text=$1
    shift
    printf %s "$text" | "$@"
}

line_of() { python3 "$here/line.py" write; }
bytes_of() { python3 "$here/line.py" read; }
packets_of() { python3 "$here/packets.py"; }

# openssl_seals KEY VECTOR, openssl_opens KEY VECTOR: from standard input to standard output.
openssl_seals() { openssl enc -aes-128-cbc -K "$1" -iv "$2"; }
openssl_opens() { openssl enc -d -aes-128-cbc -K "$1" -iv "$2"; }
