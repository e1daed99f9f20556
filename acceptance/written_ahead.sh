# The checks of segments that stand in the hidden folder before their turn comes.
# shellcheck shell=bash disable=SC2154

check_written_ahead() {
    [ -e "$work/log_moves.so" ] || cc -Wall -shared -fPIC -o "$work/log_moves.so" "$here/log_moves.c" || return
    check 'pack: segments are written ahead, and renamed in their turn' renames_what_was_written_ahead
    check 'pack: the same with --sync' renames_what_was_written_ahead --sync
    check 'pack: the hidden folder that a killed run left is cleared' clears_what_was_left
    check 'pack: a file of the hidden folder'\''s name is left alone' leaves_a_file_of_that_name
    check 'pack: what a link of the hidden folder'\''s name leads to is left alone' leaves_what_a_link_leads_to
}

# packs_standard_into FOLDER OPTIONS..: the standard stream, and the program tells no fault.
packs_standard_into() {
    local folder=$1
    shift
    writes pack --out "$folder" "$@" "$ladder_of_one:$work/worked/standard.ts"
}

renames_what_was_written_ahead() {
    local folder=$work/ahead renamed
    rm -rf "$folder" "$work/moves" "$work"/moves.*
    mkdir "$folder" || return
    LD_PRELOAD=$work/log_moves.so FOLDER=$folder MOVES=$work/moves packs_standard_into "$folder" "$@" || return
    renamed=$(awk '$1 == "rename" && $2 ~ /ts/ { printf " %s", $2 }' "$work/moves")
    [ "$renamed" = ' .v.0.ts.part v.0.ts .v.1.ts.part v.1.ts' ] || { echo "renamed:$renamed"; return 1; }
    [ ! -e "$folder/.tshls-ahead" ] || { echo 'the hidden folder is still there'; return 1; }
    packs_into "$work/ladder" "$ladder_of_one:$work/worked/standard.ts" && is_same_folder "$folder" "$work/ladder"
}

clears_what_was_left() {
    local folder=$work/ahead
    rm -rf "$folder"
    mkdir -p "$folder/.tshls-ahead/within" && echo left >"$folder/.tshls-ahead/0.0" && packs_standard_into "$folder" || return
    [ ! -e "$folder/.tshls-ahead" ] || { ls -A "$folder/.tshls-ahead"; return 1; }
}

leaves_a_file_of_that_name() {
    local folder=$work/ahead
    rm -rf "$folder"
    mkdir "$folder" && echo mine >"$folder/.tshls-ahead" && packs_standard_into "$folder" || return
    [ "$(cat "$folder/.tshls-ahead")" = mine ] && [ -e "$folder/v.1.ts" ]
}

leaves_what_a_link_leads_to() {
    local folder=$work/ahead
    rm -rf "$folder" "$work/other"
    mkdir "$folder" "$work/other" && echo mine >"$work/other/0.0" && ln -s "$work/other" "$folder/.tshls-ahead" || return
    packs_standard_into "$folder" || return
    [ "$(cat "$work/other/0.0")" = mine ] && [ "$(ls -A "$work/other")" = 0.0 ] && [ -e "$folder/v.1.ts" ]
}
