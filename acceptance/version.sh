# The version, and the processor that the program is built for.
# shellcheck shell=bash disable=SC2154

check_version() {
    check 'objdump is there' command -v objdump
    local processor
    processor=$(built_for)
    check "the version, with the processor that the program is built for, $processor" tells_version "tshls 0.1.0 $processor"
}

# built_for: by its instructions: those for AVX2 name vectors of 32 bytes.
built_for() {
    if objdump -d --no-show-raw-insn "$program" | grep -q '%ymm'; then
        echo x86-64-v3
    else
        echo x86-64-v2
    fi
}

# tells_version LINE
tells_version() {
    turned_away --version && is_line 'standard error' "$work/err" "$1"
}
