#!/bin/sh
# Tries two collectors that the same two real proxies name: each has the whole answer, and one that is lost leaves
# the other's as it was. What it tells is checked, and the exit status is 1 where something differs.
#
#     tools/try/two_collectors.sh [the aggregator program]
#
# It wants Debian's haproxy, or another by its path (HAPROXY=/opt/haproxy/sbin/haproxy), curl, and python3 to ask the
# collectors. It takes examples/fleet.conf and examples/haproxy.cfg, with a second collector added. Nobody else is
# touched: all addresses are free ones of this machine. ./build makes the program.
set -eu
case ${1:-} in -h | --help) sed -n '2,/^set -eu/s/^# \{0,1\}//p' "$0"; exit 0 ;; esac
cd "$(dirname "$0")/../.."
PATH=$PATH:/usr/sbin
collector=${1:-crates/aggregator/out/aggregator}
missing=
for need in python3 curl "${HAPROXY:-haproxy}"; do
    command -v "$need" > /dev/null || missing="$missing $need"
done
[ -z "$missing" ] || { echo "missing:$missing (apt-get install haproxy curl python3)" >&2; exit 2; }
[ -x "$collector" ] || { echo "$collector isn't built: ./build proves and links it" >&2; exit 2; }
DIR=$(mktemp -d)
# (free ones: the two collectors' for peers and for questions, and each proxy's own and its frontend's)
set -- $(PYTHONPATH=tools python3 -c 'from lib.collector import free_ports; print(*free_ports(8))')
COLLECTOR_PORT=$1 SECOND_PORT=$2 first_admin=$3 second_admin=$4
one_own=$5 one_http=$6 two_own=$7 two_http=$8
export PATH DIR COLLECTOR_PORT SECOND_PORT
pids=
trap 'kill $pids 2> /dev/null || :; wait || :; rm -rf "$DIR"' EXIT
trap 'exit 130' INT
trap 'exit 143' TERM

# Each collector has a name of its own, and every proxy names both.
sed 's/^name agg$/name agg2/' examples/fleet.conf > "$DIR/second.conf"
cp examples/fleet.conf "$DIR/first.conf"
sed '/peer agg /a\    peer agg2 "127.0.0.1:${SECOND_PORT}"' examples/haproxy.cfg > "$DIR/haproxy.cfg"

started=
collect() { # its configuration's name, its port for peers, its port for questions
    "$collector" listen --peers "127.0.0.1:$2" --admin "127.0.0.1:$3" \
        < "$DIR/$1.conf" > "$DIR/$1.said" 2>> "$DIR/$1.log" &
    started=$!
    pids="$pids $started"
    until grep -q listening "$DIR/$1.said"; do
        kill -0 "$started" || { cat "$DIR/$1.said" "$DIR/$1.log"; exit 1; }
        sleep 0.1
    done
}
proxy() { # name, its own port, its frontend's port
    OWN_PORT=$2 HTTP_PORT=$3 "${HAPROXY:-haproxy}" -db -L "$1" -f "$DIR/haproxy.cfg" 2> "$DIR/$1.log" &
    pids="$pids $!"
}
requests() { # requests through each proxy, all of one client
    for _ in $(seq "$1"); do
        for port in $one_http $two_http; do
            curl -s -o /dev/null -H "x-forwarded-for: 10.0.0.66" "http://127.0.0.1:$port/"
        done
    done
}
failed=0
counts() { # which collector, its port for questions, the count that it is to have
    for _ in $(seq 100); do
        has=$(python3 tools/try/ask.py "127.0.0.1:$2" "show table clients key 10.0.0.66" \
            | sed -n 's/.*http_req_cnt=\([0-9]*\).*/\1/p')
        [ "$has" != "$3" ] || break
        sleep 0.1
    done
    echo "the $1 collector counts ${has:-nothing}"
    [ "$has" = "$3" ] || { echo "it should count $3"; failed=1; }
}

collect first $COLLECTOR_PORT $first_admin
first=$started
collect second $SECOND_PORT $second_admin
proxy lb1 $one_own $one_http
proxy lb2 $two_own $two_http
sleep 2

echo "10.0.0.66 sends 60 requests through each proxy."
requests 60
counts first $first_admin 120
counts second $second_admin 120
for port in $first_admin $second_admin; do
    python3 tools/try/ask.py "127.0.0.1:$port" "show filter abusers"
done

echo
echo "The first collector is killed. 10.0.0.66 sends 15 more through each proxy."
kill -9 "$first"
wait "$first" 2> /dev/null || true
requests 15
counts second $second_admin 150

echo
echo "The first collector starts again: the proxies dial it and teach it all that they hold."
collect first $COLLECTOR_PORT $first_admin
counts first $first_admin 150
counts second $second_admin 150
exit $failed
