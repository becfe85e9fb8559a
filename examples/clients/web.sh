#!/usr/bin/env bash
# Reads open blobs by tools that know nothing of the service, and checks each step.
#
# usage: examples/with-stamp examples/clients/web.sh
#
# STAMP_URL, STAMP_ACCOUNT and STAMP_KEY name the server; examples/with-stamp sets them. Each step prints a line. The session ends at the first step
# that fails, with status 1. A tool that this machine does not have is named, and its steps are left out. The session makes one container and deletes
# it at its end.
. "$(dirname "$(readlink -f "$0")")/steps.sh"
need python3 cmp
container=$STAMP_URL/$name

# --- Commands ---

# has_tool TOOL: whether this machine has a tool. If not, a line says that its steps are not run.
has_tool() {
    command -v "$1" > /dev/null || { echo "not run: this machine has no $1" && false; }
}

# put FILE NAME
put() {
    "$examples/send" "$STAMP_KEY" PUT "$container/$2" x-ms-blob-type:BlockBlob < "$1"
}

# put_tree FOLDER NAME: each file of a folder, under its path.
put_tree() {
    local file
    (cd "$1" && find . -type f -printf '%P\n') | while IFS= read -r file; do
        put "$1/$file" "$2/$file" || return
    done
}

# resumed COMMAND..: whether a command ends a download of which a part is here.
resumed() {
    head -c 1000000 "$work/file" > "$work/part" && timeout 60 "$@" && cmp "$work/file" "$work/part"
}

# commit TEXT: a commit in the repository, whose bare copy is then put as files.
commit() {
    local git=(git -C "$work/source" -c user.name=name -c user.email=name@example.org)
    echo "$1" >> "$work/source/notes" && "${git[@]}" add notes && "${git[@]}" commit -q -m "$1" || return
    git clone -q --bare "$work/source" "$work/bare-$1" && git -C "$work/bare-$1" update-server-info && put_tree "$work/bare-$1" repository
}

same_notes() {
    cmp "$work/source/notes" "$work/clone/notes"
}

make_film() {
    ffmpeg -loglevel error -f lavfi -i testsrc=duration=4:size=64x64:rate=5 -c:v mpeg4 "$work/film.mp4"
}

# --- A download that was cut ---

head -c 3000000 /dev/urandom > "$work/file"
step "make an open container" "$examples/send" "$STAMP_KEY" PUT "$container?restype=container" x-ms-blob-public-access:blob < /dev/null
step "put a file" put "$work/file" file
has_tool curl && step "curl ends a download that was cut" resumed curl -sS -C - -o "$work/part" "$container/file"
has_tool wget && step "wget ends a download that was cut" resumed wget -q -c -O "$work/part" "$container/file"
if has_tool aria2c; then
    step "aria2 ends a download that was cut" resumed aria2c -q -c -d "$work" -o part "$container/file"
    rm "$work/part"
    step "aria2 gets four parts at a time" timeout 60 aria2c -q -x4 -s4 -k1M -d "$work" -o part "$container/file"
    step "they are the file" cmp "$work/file" "$work/part"
fi

# --- A repository ---

if has_tool git; then
    export GIT_CONFIG_GLOBAL=/dev/null GIT_CONFIG_NOSYSTEM=1
    step "make a repository" git init -q "$work/source"
    step "put it as files" commit first
    step "clone it" timeout 60 git clone -q "$container/repository" "$work/clone"
    step "compare it" same_notes
    step "put a second commit" commit second
    step "pull it" timeout 60 git -C "$work/clone" pull -q
    step "compare that" same_notes
fi

# --- A film ---

if has_tool ffmpeg && has_tool ffprobe; then
    step "make a film" make_film
    step "put it" put "$work/film.mp4" film.mp4
    step "ask how long it is" has 4.000000 ffprobe -loglevel error -show_entries format=duration -of csv=p=0 "$container/film.mp4"
    step "get a picture from its middle" timeout 60 ffmpeg -loglevel error -ss 2 -i "$container/film.mp4" -frames:v 1 "$work/picture.png"
fi
step "delete the container" "$examples/send" "$STAMP_KEY" DELETE "$container?restype=container"
