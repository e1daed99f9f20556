# The command line: the rows that seal and open share, and those without a command.
# shellcheck shell=bash disable=SC2154

check_commands() {
    check 'no command' misused
    check 'an empty command' misused ''
    check 'an unknown command' misused nothing "${options[@]}"
    check 'help as an option' misused --help
    check 'help as a command' misused help
    check 'the man pages tell what help tells' man_pages_tell
    check 'bash completes each command and each of its options' completions_tell
    check 'the examples of the documents' python3 "$here/examples.py" "$program" "$here/../docs/COMMANDS.md"
}

# man_pages_tell: each command has a page with all its options, and with what its help says below them, line by line.
man_pages_tell() {
    local folder=$work/man command page word lines
    mkdir "$folder"
    "$here/../samples/man_pages" "$program" "$folder" || return 1
    for command in seal open one pack check; do
        page=$folder/tshls-$command.1
        sed 's/^\\&//;s/\\//g' "$page" >"$page.text"
        "$program" "$command" --help >"$work/help" 2>&1
        grep -oe '--[a-z]*' "$work/help" | sort -u >"$work/words"
        while read -r word; do
            grep -qFe "$word" "$page.text" || { echo "tshls-$command.1 hasn't $word"; return 1; }
        done <"$work/words"
        lines=$(sed '1,/^Options:/d' "$work/help" | sed '1,/^$/d' | grep -cvFxf "$page.text")
        [ "$lines" -eq 0 ] || { echo "tshls-$command.1 lacks $lines lines of its help"; return 1; }
    done
    [ -s "$folder/tshls.1" ]
}

check_command_line() {
    local command=$1 bad
    local long=18446744073709551616

    check "$command: neither vector option" refuses 2 BadVector "$command" --key "$key"
    check "$command: both vector options" refuses 2 BadVector "$command" "${options[@]}" --seq 0
    check "$command: a bad key without a vector" refuses 2 BadKey "$command" --key 00
    check "$command: a bad key with a bad vector" refuses 2 BadKey "$command" --key 00 --iv 00
    check "$command: a bad key with both vector options" refuses 2 BadKey "$command" --key 00 --seq 0 --iv "$vector"
    for bad in '' 00 "${key%?}" "${key}0" "${key}00" "g${key#?}" "+${key#?}" " ${key#?}" "${key%?}é" éééééééééééééééé; do
        check "$command: the key '$bad'" refuses 2 BadKey "$command" --key "$bad" --seq 0
        check "$command: the vector '$bad'" refuses 2 BadVector "$command" --key "$key" --iv "$bad"
    done
    check "$command: a key that isn't UTF-8" turned_away "$command" --key $'\xff' --seq 0

    check "$command: a sequence number of 2^64" misused "$command" --key "$key" --seq "$long"
    check "$command: a sequence number of 2^64 with a bad key" misused "$command" --key 00 --seq "$long"
    for bad in '' x 1x 0x1 1.0 ' 1' 1e3; do
        check "$command: the sequence number '$bad'" misused "$command" --key "$key" --seq "$bad"
    done
    check "$command: a sequence number below 0" misused "$command" --key "$key" --seq=-1

    check "$command: no key" misused "$command" --seq 0
    check "$command: no options" misused "$command"
    check "$command: an option without its value" misused "$command" --seq 0 --key
    check "$command: an unknown option" misused "$command" "${options[@]}" --nothing
    check "$command: a word too many" misused "$command" "${options[@]}" word
    check "$command: help" misused "$command" --help
}
