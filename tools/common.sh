# What .ci/run and tools/build share: they source it.

# room_for_checks: has checks write their temporary files into memory where there is much of it, which takes the system half as long: a check
# writes and removes thousands of small ones. The folder is then $room, to be removed at the end.
room=
room_for_checks() {
    if [ -z "${TMPDIR:-}" ] && [ "$(free -g | awk '/^Mem/ { print $7 }')" -ge 16 ] && ! findmnt -no OPTIONS /dev/shm | grep -q noexec &&
        [ "$(df --output=avail /dev/shm | tail -1)" -ge 8000000 ]; then
        room=$(mktemp -d -p /dev/shm)
        # rt runs programs and tests as nobody.
        chmod 711 "$room"
        export TMPDIR=$room
    fi
}
