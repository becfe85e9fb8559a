#!/usr/bin/env bash
# Reads a blob of 12 MB at 50 KiB a second with curl and, if ffmpeg is here, watches a film of 90 seconds at its own speed. Both have to come whole.
#
# usage: examples/with-stamp examples/clients/slow.sh
#
# STAMP_URL and STAMP_KEY name the server; examples/with-stamp sets them. The session creates a container that everybody may read. Each step prints a
# line. The session ends at the first step that fails, with status 1. It takes some four minutes: less would end within the room that both systems
# have for bytes on their way, and would show nothing.
. "$(dirname "$(readlink -f "$0")")/steps.sh"
need curl cmp
container=$STAMP_URL/$name

# --- Commands ---

# put FILE NAME
put() {
    "$examples/send" "$STAMP_KEY" PUT "$container/$2" x-ms-blob-type:BlockBlob < "$1"
}

# make_film FILE: some 20 MB, far more than both systems have room for.
make_film() {
    ffmpeg -nostdin -v error -f lavfi -i testsrc=duration=90:size=640x360:rate=25 -c:v mpeg2video -b:v 2M -minrate 2M -maxrate 2M -bufsize 1M -f mpegts "$1"
}

# watch ADDRESS: reads a film at its own speed, prints what ffmpeg says of it, and then its last count of frames.
watch() {
    ffmpeg -nostdin -v error -re -i "$1" -f null -progress "$work/progress" - 2>&1 && grep '^frame=' "$work/progress" | tail -1
}

# --- Steps ---

step "create a container" "$examples/send" "$STAMP_KEY" PUT "$container?restype=container" x-ms-blob-public-access:container < /dev/null
head -c 12000000 /dev/urandom > "$work/large"
step "put a large blob" put "$work/large" large.bin
curl -q -sS --noproxy '*' --limit-rate 50k -o "$work/got" "$container/large.bin" &
reader=$!
if command -v ffmpeg > /dev/null; then
    step "make a film" make_film "$work/film.ts"
    step "put the film" put "$work/film.ts" film.ts
    step "a film is watched at its own speed" has "frame=2250" watch "$container/film.ts"
fi
step "a slow curl ends well" wait "$reader"
step "and has every byte" cmp "$work/got" "$work/large"
