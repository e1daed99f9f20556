# The checks of --metrics. promtool, of Prometheus, looks at the texts where it is there or can be had; the checks don't need it.
# shellcheck shell=bash disable=SC2154

check_metrics() {
    rm -rf "$work/metrics" && mkdir "$work/metrics" || return
    check 'metrics: whole while the run goes on, the summary in the end; a slow file, and none' reads_metrics
    check 'metrics: --metrics takes a word' turned_away pack --out "$work" "$ladder_of_one:$work/absent.ts" --metrics
    check 'metrics: nothing is written for a refused command line' writes_no_metrics
    check 'metrics: alerts and page ask for metrics that are written' asks_for_what_is_written
    command -v promtool >"$work/tool" || installs_promtool
    if command -v promtool >"$work/tool"; then
        check 'metrics: promtool takes them, and the alerts' promtool_takes_them
    fi
}

installs_promtool() {
    { DEBIAN_FRONTEND=noninteractive timeout 180 apt-get install -y --no-install-recommends prometheus; } \
        >"$work/install" 2>&1 </dev/null
}

reads_metrics() {
    cc -Wall -shared -fPIC -o "$work/slow_file.so" "$here/slow_file.c" || return
    python3 "$here/metrics.py" "$program" "$work/slow_file.so" "$work/metrics" >"$work/out" 2>&1 || { tail -1 "$work/out"; return 1; }
}

writes_no_metrics() {
    refuses 1 Settings pack --out "$work" --window 0 --metrics "$work/refused.prom" "$ladder_of_one:$work/absent.ts" || return
    [ ! -e "$work/refused.prom" ] || { echo 'it was written'; return 1; }
}

# Each metric that the samples name stands in a text.
asks_for_what_is_written() {
    local name
    grep -oh 'tshls_[a-z_]*' "$here/../samples/origin/alerts.yml" "$here/../samples/origin/index.html" | sort -u >"$work/names"
    [ -s "$work/names" ] || return
    while read -r name; do
        grep -q "^# TYPE $name " "$work/metrics/live.prom" || { echo "no $name"; return 1; }
    done <"$work/names"
}

promtool_takes_them() {
    local text
    for text in live all fault; do
        promtool check metrics <"$work/metrics/$text.prom" || return
    done
    promtool check rules "$here/../samples/origin/alerts.yml" >"$work/rules" || { cat "$work/rules"; return 1; }
    promtool test rules "$here/alerts.test.yml" >"$work/rules" 2>&1 || { cat "$work/rules"; return 1; }
}
