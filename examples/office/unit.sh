#!/bin/sh
# Tries fixdeskd.service: systemd itself starts, stops and restarts the desk.
#
#   sh unit.sh FIXDESKD
#
# FIXDESKD is the built program. It needs root, systemd, unshare, nsenter and curl, and the port 8080. A systemd of its own
# runs in its own namespaces, with /etc, /run, /tmp, /var/lib and /usr/local/bin that are gone at the end; the system's own
# is left alone. The last line is `unit: N tries, M failed`.
set -eu

[ $# -eq 1 ] || { echo "usage: unit.sh FIXDESKD" >&2; exit 1; }

here=$(cd "$(dirname "$0")" && pwd)
program=$(realpath "$(command -v "$1")")
folder=$(mktemp -d)
manager=
tries=0
failed=0

stop() {
    [ -z "$manager" ] || kill -9 "$manager" 2>/dev/null || true
    sleep 1
    rm -rf "$folder"
}
trap stop EXIT

# what the namespaces hold, and then systemd in place of this shell
cat >"$folder/begin.sh" <<END
set -e
mount --make-rprivate /
mount -t tmpfs tmpfs "$folder"
mkdir "$folder/etc" "$folder/work" "$folder/lib" "$folder/bin"
mount -t overlay overlay -o "lowerdir=/etc,upperdir=$folder/etc,workdir=$folder/work" /etc
cp "$program" "$folder/bin/fixdeskd"
chmod 755 "$folder/bin/fixdeskd"
cp "$here/fixdeskd.service" /etc/systemd/system
printf '[Unit]\nDescription=The desk alone\nDefaultDependencies=no\n' >/etc/systemd/system/alone.target
mount --bind "$folder/lib" /var/lib
mount --bind "$folder/bin" /usr/local/bin
mount -t tmpfs tmpfs /run
mount -t tmpfs tmpfs /tmp
exec env container=lxc "$(command -v /lib/systemd/systemd)" --system --unit=alone.target
END
unshare --fork --pid --mount --mount-proc sh "$folder/begin.sh" >/dev/null 2>&1 &

# inside COMMAND..: runs a command where this systemd rules
inside() {
    nsenter --target "$manager" --mount --pid "$@"
}

# waits until systemd answers, at most 20 seconds
for _ in 1 2 3 4 5 6 7 8 9 10 11 12 13 14 15 16 17 18 19 20; do
    manager=$(pgrep --full 'unit=alone.target' | tail -n 1)
    [ -z "$manager" ] || ! inside systemctl is-system-running >/dev/null 2>&1 || break
    sleep 1
done

# wants WHAT WANTED FOUND
wants() {
    tries=$((tries + 1))
    if [ "$2" = "$3" ]; then
        echo "$1: $3"
    else
        failed=$((failed + 1))
        echo "$1: $3, and not $2"
    fi
}

# published: what the desk answers, waited for at most 20 seconds
published() {
    curl -s --retry 20 --retry-delay 1 --retry-connrefused http://127.0.0.1:8080/desk/published
}

empty='{"clerks":[],"editions":[],"last":0,"masters":[],"rulebooks":[],"schemas":[]}'
amy='{"clerks":[["amy",0]],"editions":[],"last":1,"masters":[],"rulebooks":[],"schemas":[]}'

inside systemctl start fixdeskd
wants "started" "$empty" "$(published)"
wants "a write" '{"made":"clerk","name":"amy"}' \
    "$(curl -s -X POST --data-binary '{"name":"amy"}' http://127.0.0.1:8080/steward/1/clerks)"
inside systemctl stop fixdeskd
wants "stopped" inactive "$(inside systemctl is-active fixdeskd || true)"
inside systemctl start fixdeskd
wants "started again" "$amy" "$(published)"
inside systemctl kill --signal=KILL fixdeskd
sleep 2
wants "started by itself after a kill" "$amy" "$(published)"
wants "started at boot" enabled "$(inside systemctl enable fixdeskd 2>/dev/null; inside systemctl is-enabled fixdeskd)"

echo "unit: $tries tries, $failed failed"
[ "$failed" -eq 0 ]
