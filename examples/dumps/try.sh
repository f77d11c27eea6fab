#!/bin/sh
# Dumps a desk, restores it in another folder, and compares both:
#
#   sh examples/dumps/try.sh crates/fixdesk/out/fixdesk crates/fixdesk_restore/out/fixdesk_restore
set -eu

here=$(cd "$(dirname "$0")/.." && pwd)
fixdesk=$(realpath "$1")
restore=$(realpath "$2")
room=$(mktemp -d)
trap 'rm -rf "$room"' EXIT
mkdir "$room/one" "$room/other" "$room/third"

# The body of the answer to GET /desk/dump, from the desk in a folder.
dumped() {
    (cd "$1" && printf 'GET /desk/dump HTTP/1.1\r\n\r\n' | "$fixdesk" pipe) | sed '1,/^\r$/d'
}

# A call of fixdesk_restore in a folder has to end with this status.
ends() {
    status=0
    (cd "$2" && "$restore" $4 < "$3" > "$room/said" 2> "$room/why") || status=$?
    if [ "$status" != "$1" ]; then
        echo "status $status where $1 is wanted: $(cat "$room/why")"
        exit 1
    fi
}

(cd "$room/one" && "$fixdesk" pipe < "$here/desk.http" > /dev/null)
dumped "$room/one" > "$room/dump"
ends 0 "$room/other" "$room/dump" ""
dumped "$room/other" | cmp - "$room/dump"
(cd "$room/one" && "$fixdesk" report) > "$room/report"
(cd "$room/other" && "$fixdesk" report) | cmp - "$room/report"
ls "$room/other"

# The whole stream again: both desks answer alike, and have the same dump still.
(cd "$room/one" && "$fixdesk" pipe < "$here/desk.http") > "$room/answers"
(cd "$room/other" && "$fixdesk" pipe < "$here/desk.http") | cmp - "$room/answers"
dumped "$room/other" | cmp - "$room/dump"

# A desk that is there is not touched, and neither is an empty file.
cp "$room/other/desk.db" "$room/before"
ends 10 "$room/other" "$room/dump" ""
cmp "$room/other/desk.db" "$room/before"
: > "$room/third/desk.db"
ends 10 "$room/third" "$room/dump" ""
[ ! -s "$room/third/desk.db" ]
rm "$room/third/desk.db"

# A dump that is cut off makes no file, and neither do words.
head -c 500 "$room/dump" > "$room/cut"
ends 7 "$room/third" "$room/cut" ""
cat "$room/why"
ends 1 "$room/third" "$room/dump" now
[ -z "$(ls "$room/third")" ]
echo "restored alike"
