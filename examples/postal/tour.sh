#!/bin/sh
# A tour of fixdeskd: a steward publishes the postal registry in this folder, and the clerk amy enters addresses.
#
#   sh tour.sh COMMAND..
#
# COMMAND.. starts fixdeskd, and the port and the number of connections are put after it. The port is 8765, or PORT from
# the environment. fixdeskd ends by itself after the last connection, and is stopped where the tour breaks off; the tour
# needs curl. COMMAND.. may take an hour until the desk is there, as a first proof of the program does.
set -eu

[ $# -ge 1 ] || { echo "usage: tour.sh COMMAND.." >&2; exit 1; }

here=$(dirname "$0")
port=${PORT:-8765}
desk="http://127.0.0.1:$port"
connections=21

"$@" "$port" "$connections" &
program=$!
trap 'kill "$program" 2>/dev/null || true' EXIT

# Each request is one connection. The first waits until the desk is there.
ask() {
    echo "$1 $2"
    curl -s --retry 3600 --retry-delay 1 --retry-connrefused -X "$1" "$desk$2" ${3+--data-binary "$3"} ||
        { echo "no answer" >&2; exit 1; }
    echo
}

echo "== the steward publishes a clerk, a schema, two masters, rules, and an edition of them"
ask POST /steward/1/clerks '{"name":"amy"}'
ask POST /steward/2/schemas "@$here/address.toml"
ask POST /steward/3/masters/post "@$here/post.csv"
ask POST /steward/4/masters/areas "@$here/areas.csv"
ask POST /steward/5/rulebooks/postal/address/1 "@$here/rules.txt"
ask POST /steward/6/editions/postal \
    '{"folded":["zip"],"masters":[["post",1],["areas",1]],"rulebook":["postal",1]}'

echo "== which rules are these? they are shown as they were published"
ask GET /desk/rulebooks/postal/1

echo "== amy enters an address whose zip she knows: town, region and country are fixed"
ask POST /do/amy/1/open/postal \
    '{"cells":{"city":"Edinbrugh","street":"12 Easter Road","zip":"eh7 4aa"},"confirmed":["zip"]}'

echo "== why is the country Scotland? the steps that it rests on, and what she confirmed that they use"
ask GET /see/amy/explain/1/country

echo "== the street is in no master, so a commit that asks for certainty is refused, until she confirms it"
ask POST /do/amy/2/commit/1 '{"accept":"certain"}'
ask POST /do/amy/2/confirm/1 '{"cells":{"street":"12 Easter Road"}}'

echo "== the master has two towns for this zip: a conflict, and two orders of the rules that end otherwise"
ask POST /do/amy/3/open/postal '{"cells":{"street":"1 Main Street","zip":"KA6 7PD"},"confirmed":["zip"]}'

echo "== what is it about? the two towns, each with the rule and the row that it comes from"
ask GET /see/amy/choices/2

echo "== nothing is confirmed yet: what would help?"
ask POST /do/amy/4/open/postal '{"cells":{"zip":"G1 1XQ"},"confirmed":[]}'
ask GET /see/amy/suggest/3

echo "== a zip that is in no master: what stands in the way of the town?"
ask POST /do/amy/5/open/postal \
    '{"cells":{"street":"1 Main Street","zip":"ZZ1 1ZZ"},"confirmed":["street","zip"]}'
ask GET /see/amy/blocked/4

echo "== the first address is kept; the same request again is answered the same, and keeps nothing twice"
ask POST /do/amy/6/commit/1 '{"accept":"certain"}'
ask POST /do/amy/6/commit/1 '{"accept":"certain"}'

echo "== the records and the report"
ask GET /see/amy/records/postal/1
ask GET /see/amy/report

wait "$program"
trap - EXIT
