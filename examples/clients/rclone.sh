#!/usr/bin/env bash
# Copies files to a server and back by rclone, and checks each step.
#
# usage: examples/with-stamp examples/clients/rclone.sh
#
# STAMP_URL, STAMP_ACCOUNT and STAMP_KEY name the server; examples/with-stamp sets them. Each step prints a line. The session ends at the first step
# that fails, with status 1. It makes two containers and deletes them at its end. checks/clients runs it if rclone is here.
#
# rclone speaks a newer version of the service, so as-2012 goes between. A guest brings a token for one container, and the owner signs by the key.
# rclone itself tries nothing twice here, so a request that fails is seen.
. "$(dirname "$(readlink -f "$0")")/steps.sh"
need rclone python3 cmp diff
container=$STAMP_URL/$name
expiry=$(date -u -d '+1 hour' +%Y-%m-%dT%H:%M:%SZ)
stand_before 0 --sign "$STAMP_KEY"
url=http://$address/$STAMP_ACCOUNT
# No file of settings is read: the remotes are these variables.
export RCLONE_CONFIG=/dev/null
export RCLONE_CONFIG_GUEST_TYPE=azureblob RCLONE_CONFIG_GUEST_SAS_URL
export RCLONE_CONFIG_READER_TYPE=azureblob RCLONE_CONFIG_READER_SAS_URL
RCLONE_CONFIG_GUEST_SAS_URL="$url/$name?$("$examples/token" "$STAMP_KEY" "/$STAMP_ACCOUNT/$name" rwdl - "$expiry" -)"
RCLONE_CONFIG_READER_SAS_URL="$url/$name?$("$examples/token" "$STAMP_KEY" "/$STAMP_ACCOUNT/$name" rl - "$expiry" -)"
export RCLONE_CONFIG_OWNER_TYPE=azureblob RCLONE_CONFIG_OWNER_USE_EMULATOR=true RCLONE_CONFIG_OWNER_ENDPOINT=$url
export RCLONE_CONFIG_OWNER_ACCOUNT=$STAMP_ACCOUNT RCLONE_CONFIG_OWNER_KEY=$STAMP_KEY
box=guest:$name
second=owner:$name-second

# --- The files ---

mkdir -p "$work/up/notes/2012" "$work/up/two words" "$work/up/empty folder is not kept"
head -c 10000000 /dev/urandom > "$work/up/large.bin"
printf hello > "$work/up/a.txt"
: > "$work/up/empty"
printf 'one\n' > "$work/up/notes/1+1=2 & more.txt"
printf 'two\n' > "$work/up/notes/café 50%.txt"
printf 'three\n' > "$work/up/notes/2012/three.txt"
printf 'four\n' > "$work/up/notes/2012/<four>.txt"
printf 'five\n' > "$work/up/two words/four five"
printf 'six\n' > "$work/up/two words/four+six"
names='a.txt
empty
large.bin
notes/
notes/1+1=2 & more.txt
notes/2012/
notes/2012/<four>.txt
notes/2012/three.txt
notes/café 50%.txt
two words/
two words/four five
two words/four+six'

# --- Commands ---

# once WORD..: rclone, each request once.
once() {
    timeout 60 rclone --retries 1 --low-level-retries 1 --contimeout 10s --timeout 20s "$@"
}

# names_in WORD.. REMOTE: the names in a remote, folders too, in the order of their bytes.
names_in() {
    once lsf -R "$@" | LC_ALL=C sort
}

# blobs: the list of the container, with an ETag for each state of each blob.
blobs() {
    "$examples/send" "$STAMP_KEY" GET "$container?restype=container&comp=list"
}

send_nothing() {
    blobs > "$work/before" && once -v copy "$work/up" "$box" && blobs > "$work/after" && cmp "$work/before" "$work/after"
}

part_is_same() {
    once cat --offset 5000000 --count 1000 "$box/large.bin" > "$work/part" || return
    tail -c +5000001 "$work/up/large.bin" | head -c 1000 | cmp - "$work/part"
}

copy_down() {
    once copy "$1" "$work/down" && once check --download "$work/up" "$work/down"
}

# names_of_containers: the names of the containers of this session.
names_of_containers() {
    once lsf --dirs-only --dir-slash=false owner: > "$work/containers" && sed -n "/^$name/p" "$work/containers"
}

# fails_by CODE COMMAND..: whether a command fails, and tells this code of the service.
fails_by() {
    local code=$1
    shift
    ! "$@" > "$work/why" 2>&1 && grep "ServiceCode=$code" "$work/why"
}

# --- By a token for the container ---

step "make a container by the key" "$examples/send" "$STAMP_KEY" PUT "$container?restype=container" < /dev/null
step "copy up by a token" once copy "$work/up" "$box"
step "list with folders" has "$names" names_in "$box"
step "list with folders, by pages of one entry" has "$names" names_in --azureblob-list-chunk 1 "$box"
step "list all at once, by pages of two entries" has "$names" names_in --fast-list --azureblob-list-chunk 2 "$box"
step "list one folder" has "2012/" once lsf --dirs-only "$box/notes"
step "read a part of a file" part_is_same
step "check by size" once check --size-only "$work/up" "$box"
step "check by download" once check --download "$work/up" "$box"
step "a second copy sends nothing" send_nothing
printf 'hello again' > "$work/up/a.txt"
step "copy one file that has changed" once copy "$work/up" "$box"
step "read it" has "hello again" once cat "$box/a.txt"
# A list has no MD5s, so a change that keeps the length is seen by its time alone.
printf 'Hello again' > "$work/up/a.txt"
step "copy by checksums" once copy --checksum "$work/up" "$box"
step "a change of equal length was not seen" has "hello again" once cat "$box/a.txt"
step "copy by lengths and times" once copy "$work/up" "$box"
step "it was seen" has "Hello again" once cat "$box/a.txt"
touch -r "$work/up/a.txt" "$work/time"
printf 'HELLO again' > "$work/up/a.txt"
touch -r "$work/time" "$work/up/a.txt"
step "copy by lengths and times again" once copy "$work/up" "$box"
step "a change of equal length and time was not seen" has "Hello again" once cat "$box/a.txt"
step "copy whatever the times are" once copy --ignore-times "$work/up" "$box"
step "it was sent" has "HELLO again" once cat "$box/a.txt"
step "copy down by a token that only reads" copy_down "reader:$name"
step "copy up by it is refused" fails_by AuthenticationFailed once copy --no-check-dest "$work/up/a.txt" "reader:$name"
step "delete a file" once deletefile "$box/empty"
step "delete a folder" once delete "$box/notes"
step "delete a folder with a space in its name" once delete "$box/two words"
step "list what is left" has "a.txt
large.bin" names_in "$box"

# --- By the key ---

step "make a container" once mkdir "$second"
step "make it again" once mkdir "$second"
step "copy up into a container that exists" once copy "$work/up" "$second"
step "list the containers" has "$name
$name-second" names_of_containers
step "copy from one container to the other" once --disable=copy copy "owner:$name" "$second/copied"
step "check by download" once check --download "owner:$name" "$second/copied"
step "a copy inside the service is refused" fails_by UnsupportedHeader once copyto "$second/a.txt" "$second/b.txt"
step "copy through the client" once --disable=copy copyto "$second/a.txt" "$second/b.txt"
step "delete a container with its files" once purge "$second"
step "delete the other" once purge "owner:$name"
step "list no container" has "" names_of_containers
