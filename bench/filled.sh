# Adapter of the harness that bench/serve runs, over the one that it has for `syncrepl serve` (in loaded.sh). A file of
# entries may have 1,000,000 lines. Where the harness' file has more, the directory begins empty and is filled over
# four connections by the harness' own adds, which are of the same entries.
. "$bench/servers/loaded.sh"
eval "$(declare -f server_start | sed '1s/server_start/start_loaded/')"
MOST_LINES=1000000

server_start() {
    local entries
    if [ -z "${4:-}" ] || [ "$(wc -l <"$4")" -le $MOST_LINES ]; then
        start_loaded "$@"
        return
    fi
    start_loaded "$1" "$2" "$3" '' || return 1
    entries=$(grep -c '^dn: uid=' "$4")
    "$load" add --port "$2" --who "$(server_who "$3")" --pass "$(server_pass)" --base "$3" \
        --n "$entries" --conns 4 --depth 8 --secs 600 >/dev/null
}
