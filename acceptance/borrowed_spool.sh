# The checks of what the compiler refuses: a spool can't be swapped in while a plan of it is read.
# shellcheck shell=bash disable=SC2154

check_borrowed_spool() {
    check "cutter: a spool isn't swapped in while a plan of it is read" refuses_the_swap 'spool.plan(0)' 'lent.is_some()'
    check 'cutter: a spool is swapped in once its plan was read' takes_the_swap 'spool.plan(0).is_some()' lent
}

# swaps_in LENT TOLD: whether a crate compiles that swaps in a spool between what the spool lends and what is told of that.
swaps_in() {
    local root=$work/borrowed name
    rm -rf "$root"
    mkdir -p "$root/crates"
    for name in limits ghost_list ts_packet psi_tables pes_time cutter; do
        cp -a "$here/../crates/$name" "$root/crates/" || return
        grep "^$name:" "$here/../crates.txt" >>"$root/crates.txt" || return
    done
    cp "$here/../HANDLES" "$root/" && git -C "$root" init -q || return
    cat >>"$root/crates/cutter/src/lib.rt" <<LINES

/// Swaps in a spool.
pub fn swaps_in(cutter: &mut SpoolCutter, spool: Spool) -> bool {
    let lent = $1;
    let swapped = cutter.swap(spool);
    $2 && swapped.is_ok()
}
LINES
    (cd "$root/crates/cutter" && rt check --only '') >"$work/compiled" 2>&1
}

refuses_the_swap() {
    ! swaps_in "$@" || { echo 'it compiles'; return 1; }
    grep -q 'cannot move out of `spool` because it is borrowed' "$work/compiled" || { tail -n 3 "$work/compiled"; return 1; }
}

takes_the_swap() {
    swaps_in "$@" || { tail -n 3 "$work/compiled"; return 1; }
}
