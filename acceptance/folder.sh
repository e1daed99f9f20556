# The checks of the outlet of files, on real folders: folder_items puts a segment of so many bytes, and three playlists.
# shellcheck shell=bash disable=SC2154

folder_items=$here/../crates/fixture_folder_items/out/fixture_folder_items

check_folder() {
    if [ ! -x "$folder_items" ]; then
        check 'folder: the program that puts items is there' false
        return
    fi
    check 'folder: four files' puts_four_files
    check 'folder: older files are replaced' replaces_older_files
    check "folder: one that isn't there" refuses_all "$work/absent"
    check 'folder: a file in its place' refuses_all "$here/folder.sh"
    check 'folder: without leave to write' refuses_without_leave
    if mkdir -p "$work/disk" && mount -t tmpfs -o size=64k none "$work/disk" 2>"$work/mounted"; then
        check 'folder: a disk too small for a segment, and nothing is put behind it' refuses_from_the_segment_on
        check 'folder: a full disk' refuses_on_a_full_disk
        umount "$work/disk"
    else
        echo "no disk can be mounted here, so none is full: $(cat "$work/mounted")"
    fi
}

# puts WORDS FOLDER SIZE: what became of each item.
puts() {
    local found
    found=$("$folder_items" "$2" "$3" | tr '\n' ' ')
    [ "$found" = "$1 " ] || { echo "$found in place of $1"; return 1; }
}

# has NAMES FOLDER: the names in it, hidden ones too.
has() {
    local found
    found=$(ls -A "$2" | tr '\n' ' ')
    [ "$found" = "$1 " ] || { echo "$found in place of $1"; return 1; }
}

four='master.m3u8 v.7.ts v.iframes.m3u8 v.m3u8'

puts_four_files() {
    mkdir "$work/put" && puts 'put put put put' "$work/put" 100000 && has "$four" "$work/put" &&
        [ "$(wc -c <"$work/put/v.7.ts")" -eq 100000 ] && [ "$(head -n 1 "$work/put/v.m3u8")" = '#EXTM3U' ]
}

replaces_older_files() {
    local folder=$work/older
    mkdir "$folder" && echo older >"$folder/v.7.ts" && echo left >"$folder/.v.7.ts.part" && ln "$folder/v.7.ts" "$folder/kept" &&
        puts 'put put put put' "$folder" 5 && has "kept $four" "$folder" &&
        [ "$(cat "$folder/v.7.ts")" = GGGGG ] && [ "$(cat "$folder/kept")" = older ]
}

refuses_all() {
    puts 'refused refused refused refused' "$1" 5
}

# As nobody, where this runs as a user who may write anywhere.
refuses_without_leave() {
    local folder as_nobody=()
    folder=$(mktemp -d) || return
    chmod 755 "$folder"
    echo older >"$folder/v.7.ts"
    cp "$folder_items" "$folder/folder_items"
    mkdir "$folder/closed" && cp "$folder/v.7.ts" "$folder/closed" && chmod 555 "$folder/closed"
    [ "$(id -u)" -ne 0 ] || as_nobody=(setpriv --reuid 65534 --regid 65534 --clear-groups)
    local found
    found=$("${as_nobody[@]}" "$folder/folder_items" "$folder/closed" 5 | tr '\n' ' ')
    has v.7.ts "$folder/closed" && [ "$(cat "$folder/closed/v.7.ts")" = older ] && [ "$found" = 'refused refused refused refused ' ]
    local status=$?
    chmod 755 "$folder/closed"
    rm -rf "$folder"
    [ $status -eq 0 ] || echo "$found"
    return $status
}

refuses_from_the_segment_on() {
    echo older >"$work/disk/v.7.ts" && puts 'refused refused refused refused' "$work/disk" 100000 &&
        has v.7.ts "$work/disk" && [ "$(cat "$work/disk/v.7.ts")" = older ] && rm "$work"/disk/*
}

# The older files stay as they are, and nothing that was begun stays.
refuses_on_a_full_disk() {
    local file
    for file in $four; do
        echo older >"$work/disk/$file"
    done
    cat /dev/zero >"$work/disk/zeros" 2>"$work/full"
    puts 'refused refused refused refused' "$work/disk" 5 && has "$four zeros" "$work/disk" || return
    for file in $four; do
        [ "$(cat "$work/disk/$file")" = older ] || { echo "$file was changed"; return 1; }
    done
}
