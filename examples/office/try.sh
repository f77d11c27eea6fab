#!/bin/sh
# Tries the desk of an office: nginx with names and passwords in front of fixdeskd, as nginx.conf says.
#
#   sh try.sh FIXDESKD
#
# FIXDESKD is the built program. It needs nginx, htpasswd and curl, and the ports 8000 and 8080. Everything is written to
# a folder of its own, which is taken away at the end. The last line is `office: N tries, M failed`.
set -eu

[ $# -eq 1 ] || { echo "usage: try.sh FIXDESKD" >&2; exit 1; }

here=$(cd "$(dirname "$0")" && pwd)
program=$(realpath "$(command -v "$1")")
folder=$(mktemp -d)
chmod 755 "$folder"
desk=
tries=0
failed=0

stop() {
    nginx -p "$folder" -c "$folder/nginx.conf" -s quit 2>/dev/null || true
    [ -z "$desk" ] || kill "$desk" 2>/dev/null || true
    sleep 1
    rm -rf "$folder"
}
trap stop EXIT

cp "$here/nginx.conf" "$folder"
for name in steward amy bob; do
    htpasswd -b $([ -e "$folder/names" ] || echo -c) "$folder/names" "$name" "word of $name" 2>/dev/null
done

start_desk() {
    (cd "$folder" && exec "$program" 8080 1000000) &
    desk=$!
}

# as NAME METHOD PATH [BODY]: the status of a request by this name
as() {
    curl -s -o "$folder/body" -w '%{http_code}' \
        -u "$1:word of $1" -X "$2" "http://127.0.0.1:8000$3" ${4+--data-binary "$4"}
}

# waits until nginx and the desk answer, at most 20 seconds
answering() {
    for _ in 1 2 3 4 5 6 7 8 9 10 11 12 13 14 15 16 17 18 19 20; do
        [ "$(as steward GET /desk/report)" != 200 ] || return 0
        sleep 1
    done
}

# wants WHAT WANTED FOUND
wants() {
    tries=$((tries + 1))
    if [ "$2" = "$3" ]; then
        echo "$1: $3"
    else
        failed=$((failed + 1))
        echo "$1: $3, and not $2"
    fi
}

start_desk
nginx -p "$folder" -c "$folder/nginx.conf"
answering

wants 'nobody is asked for a name' 401 "$(curl -s -o "$folder/body" -w '%{http_code}' http://127.0.0.1:8000/desk/report)"
wants 'a wrong password is refused' 401 \
    "$(curl -s -o "$folder/body" -w '%{http_code}' -u 'amy:word of bob' http://127.0.0.1:8000/see/amy/report)"
wants 'the steward publishes amy' 201 "$(as steward POST /steward/1/clerks '{"name":"amy"}')"
wants 'and bob' 201 "$(as steward POST /steward/2/clerks '{"name":"bob"}')"
wants 'amy may not write as the steward' 403 "$(as amy POST /steward/3/clerks '{"name":"eve"}')"
wants 'nor look at the desk' 403 "$(as amy GET /desk/report)"
wants 'amy sees her report' 200 "$(as amy GET /see/amy/report)"
wants 'and not that of bob' 403 "$(as amy GET /see/bob/report)"
wants 'nor by a path that leads there' 403 "$(curl -s -o "$folder/body" -w '%{http_code}' --path-as-is \
    -u 'amy:word of amy' http://127.0.0.1:8000/see/bob/../bob/report)"
wants 'nor by an escaped name' 403 "$(as amy GET /see/%62ob/report)"
wants 'amy may not write as bob' 403 "$(as amy POST /do/bob/1/abandon/1 '')"
wants 'nobody has another path' 403 "$(as steward GET /favicon.ico)"

# fixdeskd refuses chunks; nginx takes them, and hands on a body with its length.
wants 'a body in chunks passes' 201 "$(curl -s -o "$folder/body" -w '%{http_code}' -u 'steward:word of steward' \
    -H 'Transfer-Encoding: chunked' -X POST http://127.0.0.1:8000/steward/3/clerks --data-binary '{"name":"eve"}')"

# A peer that sends half of a request and no more, while another asks.
(printf 'GET /see/amy/report HTTP/1.1\r\nHost: x\r\n'; sleep 5) | curl -s --max-time 5 telnet://127.0.0.1:8000 >/dev/null &
wants 'a slow peer holds nobody up' 200 "$(curl -s --max-time 1 -o "$folder/body" -w '%{http_code}' \
    -u 'amy:word of amy' http://127.0.0.1:8000/see/amy/report)"

# A thousand requests over one connection, which nginx keeps: the part after # is not sent.
curl -s -u 'amy:word of amy' -o /dev/null -w '%{http_code} %{num_connects}\n' \
    'http://127.0.0.1:8000/see/amy/report#[1-1000]' >"$folder/thousand"
wants 'a thousand requests are answered' 1000 "$(grep -c '^200 ' "$folder/thousand")"
wants 'over one connection' 1 "$(awk '{ n += $2 } END { print n }' "$folder/thousand")"

kill "$desk"
wait "$desk" 2>/dev/null || true
start_desk
answering
wants 'the desk is there after it was killed and started' 200 "$(as amy GET /see/amy/report)"
wants 'and knows what was published last' 201 "$(as steward POST /steward/4/clerks '{"name":"ivy"}')"

echo "office: $tries tries, $failed failed"
[ "$failed" -eq 0 ]
