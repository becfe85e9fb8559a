# shellcheck shell=bash disable=SC2034
# The commands that rclone.sh, restic.sh, slow.sh and web.sh share. They source it: it is not run by itself.
set -u
export LC_ALL=C.UTF-8
: "${STAMP_URL:?examples/with-stamp sets it}"
examples=$(dirname "$(dirname "$(readlink -f "$0")")")
name=real-$$-$(date +%s)
work=$(mktemp -d)
proxies=()
trap 'kill "${proxies[@]}" 2> /dev/null; rm -rf "$work"' EXIT

# need TOOL..: ends the session if this machine does not have a tool.
need() {
    local tool
    for tool; do
        command -v "$tool" > /dev/null || { echo "${0##*/}: this machine has no $tool" >&2 && exit 1; }
    done
}

# step WHAT COMMAND..: runs a command and prints a line. If the command fails, what it printed follows, and the session ends.
step() {
    local what=$1
    shift
    if "$@" > "$work/printed" 2>&1; then
        echo "ok $what"
    else
        echo "FAIL $what: status $?"
        cat "$work/printed"
        exit 1
    fi
}

# stand_before PORT WORD..: starts as-2012 with these words. Once it listens, `address` says where.
stand_before() {
    local lines
    exec {lines}< <(exec "$examples/clients/as-2012" "$@")
    proxies+=($!)
    read -t 20 -r _ address <&"$lines" || { echo "${0##*/}: as-2012 does not listen" >&2 && exit 1; }
}

# has TEXT COMMAND..: whether a command ends well and prints exactly this text.
has() {
    local text=$1 printed
    shift
    printed=$("$@") || return
    [[ $printed == "$text" ]] || { printf 'it printed:\n%s\nand not:\n%s\n' "$printed" "$text" && false; }
}
