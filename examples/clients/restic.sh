#!/usr/bin/env bash
# Keeps backups on a server by restic, and checks each step.
#
# usage: examples/with-stamp examples/clients/restic.sh
#
# STAMP_URL and STAMP_KEY name the server, whose account has to be devstoreaccount1; examples/with-stamp sets them. Each step prints a line. The session
# ends at the first step that fails, with status 1. checks/clients runs it if restic is here.
#
# restic speaks a newer version of the service, so as-2012 goes between. For devstoreaccount1 restic goes to port 10000 of 127.0.0.1 by HTTP, whatever
# else is set. So that port has to be free. It signs by the emulator's key, whatever AZURE_ACCOUNT_KEY is; as-2012 signs again by the server's key.
. "$(dirname "$(readlink -f "$0")")/steps.sh"
need restic python3 diff
stand_before 10000 --sign "$STAMP_KEY"
export AZURE_ACCOUNT_NAME=devstoreaccount1 AZURE_ACCOUNT_KEY=$STAMP_KEY
export RESTIC_REPOSITORY=azure:$name:/ RESTIC_PASSWORD=password

# --- The files ---

mkdir -p "$work/home/notes"
head -c 20000000 /dev/urandom > "$work/home/first.bin"
for number in {1..200}; do
    echo "note $number" > "$work/home/notes/$number.txt"
done

# --- Commands ---

# once WORD..: restic without its cache, so that all is read from the server.
once() {
    timeout 120 restic --no-cache "$@"
}

back_up() {
    (cd "$work/home" && once backup .)
}

# has_snapshots NUMBER
has_snapshots() {
    once snapshots --json | python3 -c "import json, sys; found = len(json.load(sys.stdin)); print(found, 'snapshots'); sys.exit(found != $1)"
}

# restore TO: restores the last snapshot, and compares it with the files.
restore() {
    once restore latest --target "$work/$1" && diff -r "$work/home" "$work/$1"
}

# --- The session ---

step "make a repository" once init
step "back up 20 MB" back_up
step "list one snapshot" has_snapshots 1
head -c 20000000 /dev/urandom > "$work/home/second.bin"
rm "$work/home/first.bin" "$work/home/notes/"1?.txt
step "back up 20 MB more" back_up
step "list two snapshots" has_snapshots 2
step "check all data" once check --read-data
step "restore, and compare" restore first
step "forget one snapshot, and prune" once forget --keep-last 1 --prune
step "list one snapshot after that" has_snapshots 1
step "check all data after that" once check --read-data
step "restore after that, and compare" restore second
step "delete the container" "$examples/send" "$STAMP_KEY" DELETE "$STAMP_URL/$name?restype=container"
