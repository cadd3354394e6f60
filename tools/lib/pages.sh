# What a page's commands find beside a shell's own: tools/check/pages.py reads this into the bash that runs a page.
#
# DIR is the page's folder, PROGRAM the collector. fleet.conf and haproxy.cfg there are the files that the page has
# shown. COLLECTOR_PEERS, ADMIN, ADMIN_SOCKET, HTTP, LB1 and so on are the addresses that stand for the page's.

aggregator() { "$PROGRAM" "$@"; }
sudo() { "$@"; }

# Waits, for five seconds at most, until a command ends with 0.
until_it() {
    local _
    for _ in $(seq 100); do
        "$@" > /dev/null 2>&1 && return
        sleep 0.05
    done
    echo "never: $*"
    return 1
}

# Starts a command that prints `listening`, and goes on once it has.
begin() {
    : > "$DIR/said"
    (
        aggregator() { exec "$PROGRAM" "$@"; }
        eval "$1"
    ) > "$DIR/said" 2>> "$DIR/log" < /dev/null &
    collector=$!
    until_it grep -q listening "$DIR/said" || { tail -n 5 "$DIR/said" "$DIR/log"; return 1; }
}

# Whether somebody listens at an address.
answers() { : < "/dev/tcp/${1%:*}/${1##*:}"; }

start_collector() {
    begin "aggregator listen --config '$DIR/fleet.conf' --peers $COLLECTOR_PEERS --admin-socket '$ADMIN_SOCKET' \
        --http $HTTP ${OPTIONS:-}"
}

stop_collector() {
    [ -z "${collector:-}" ] || { kill "$collector"; wait "$collector"; } 2> /dev/null
    collector=
}

# Has a proxy's master start a new worker, and waits until that one is alone: what the old one counts isn't pushed.
reload_proxy() {
    local old
    old=$(pgrep -P "$1")
    kill -USR2 "$1"
    until_it has_new_worker "$1" "$old"
}

has_new_worker() {
    local now
    now=$(pgrep -P "$1") && [ "$(echo "$now" | wc -l)" = 1 ] && [ "$now" != "$2" ]
}

# The service is the page's collector, or, where it is named, the proxy on which `ssh` runs the command.
systemctl() {
    case "$*" in
        *haproxy*) cfg_of "$HOST" && reload_proxy "$(cat "$DIR/$HOST.pid")" ;;
        start* | enable* | restart*) stop_collector; start_collector ;;
        stop*) stop_collector ;;
        *) echo "systemctl $*: not in the sandbox"; return 1 ;;
    esac
}

journalctl() { cat "$DIR/log"; }

# On a proxy. Each has a stats socket, and a configuration of its own.
ssh() {
    local host=$1 text
    shift
    text=${*//\/run\/haproxy\/admin.sock/$DIR/$host.sock}
    (HOST=$host; eval "$text")
}

# The configuration of a proxy: the page's haproxy.cfg, or CFG_FILE, behind what each has. In its section `peers fleet`
# lb1 and that one's address are this proxy's; a comment `# ..` stands for what its frontend has already.
cfg_of() {
    local own=LB${1#lb} http=LB${1#lb}_HTTP
    {
        echo "global"
        echo "    stats socket $DIR/$1.sock level admin"
        echo "defaults"
        echo "    mode http"
        echo "    timeout client 10s"
        echo "    timeout server 10s"
        echo "    timeout connect 1s"
        awk -v name="$1" -v from="$LB1" -v to="${!own}" -v http="${!http}" '
            /^[a-z]/ { in_fleet = $0 ~ /^peers fleet/ }
            in_fleet { sub("(peer|server) lb1 " from, "peer " name " " to) }
            /^    # \.\./ { print "    bind " http "\n    http-request return status 200"; next }
            { print }' "$DIR/${CFG_FILE:-haproxy.cfg}"
    } > "$DIR/$1.cfg"
    "${HAPROXY:-haproxy}" -c -q -f "$DIR/$1.cfg" -L "$1"
}

# Starts a proxy of this name.
proxy() {
    local http=LB${1#lb}_HTTP
    cfg_of "$1" || return 1
    "${HAPROXY:-haproxy}" -W -L "$1" -f "$DIR/$1.cfg" >> "$DIR/$1.log" 2>&1 < /dev/null &
    echo $! > "$DIR/$1.pid"
    until_it answers "${!http}" || { tail -n 5 "$DIR/$1.log"; return 1; }
}

end_proxy() {
    kill "$(cat "$DIR/$1.pid")"
    wait "$(cat "$DIR/$1.pid")" 2> /dev/null
    :
}

# Sends requests of a client through a proxy: its name, the client's address, how many.
send() {
    local http=LB${1#lb}_HTTP client=${2/#10.0.0./127.0.0.}
    curl -s -o /dev/null --interface "$client" "http://${!http}/?[1-$3]"
}

# What a proxy answers a client.
status() {
    local http=LB${1#lb}_HTTP client=${2/#10.0.0./127.0.0.}
    curl -s -o /dev/null -w '%{http_code}\n' --interface "$client" "http://${!http}/"
}

refuses() { [ "$(status "$1" "$2")" = 429 ]; }

# README.md's story: neither proxy alone sees more than its limit, and both refuse.
two_proxies_and_a_bot() {
    proxy lb1 && proxy lb2 && sleep 1 || return 1
    send lb1 10.0.0.66 60 && send lb2 10.0.0.66 60 && send lb1 10.0.0.7 5
}

both_refuse_the_bot() {
    until_it refuses lb1 10.0.0.66 && until_it refuses lb2 10.0.0.66 && ! refuses lb2 10.0.0.7
}
