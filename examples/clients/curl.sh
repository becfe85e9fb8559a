#!/usr/bin/env bash
# Sends a server what a user of curl sends, by all seventeen operations, and checks each answer.
#
# usage: examples/with-stamp examples/clients/curl.sh
#
# STAMP_URL, STAMP_ACCOUNT, STAMP_KEY and STAMP_KEY2 name the server; examples/with-stamp sets them. The session creates three containers and deletes
# them at its end. Each check prints a line, and the last line has two counts. The status is 1 if a check failed. If a request gets no reply within
# ten seconds, the session ends.
#
# The answers that are wanted are those of docs/formats. openssl makes the signatures and the MD5s, and examples/token makes the tokens.
set -u
export LC_ALL=C
: "${STAMP_URL:?examples/with-stamp sets it}"
for tool in curl openssl; do
    command -v "$tool" > /dev/null || { echo "curl.sh: this machine has no $tool" >&2 && exit 1; }
done
account=/${STAMP_URL#*://*/}
origin=${STAMP_URL%"$account"}
container=$account/curl-$$-$(date +%s)
# The first container is closed, the open one has the level container, and the half-open one has the level blob.
open=$container-open
half=$container-half
blob=$container/whole.bin
parts=$container/parts.txt
note=$container/note.txt
# A moment that no run of this session reaches, and one that is over.
later=2099-12-31T00:00:00Z
before=2012-10-01T12:00:00Z
common=(-q -sS --noproxy '*' --max-time 10)
passed=0
failed=0
work=$(mktemp -d)
trap 'rm -rf "$work"' EXIT
: > "$work/empty"
printf hello > "$work/hello"
printf ', world' > "$work/world"
openssl rand -out "$work/large" 2097152

# --- Checks ---

# expect WHAT GOT WANT
expect() {
    if [[ $2 == "$3" ]]; then
        passed=$((passed + 1))
        printf 'ok %s\n' "$1"
    else
        failed=$((failed + 1))
        printf 'FAIL %s: got %s want %s\n' "$1" "$2" "$3"
    fi
}

# expect_reply WHAT WANT: WANT is the status of the last reply, and after it the rule that refused the request.
expect_reply() {
    local rule
    rule=$(header x-stamp-rule)
    expect "$1" "$status${rule:+ $rule}" "$2"
}

# expect_same WHAT FILE FILE: whether both files have the same bytes.
expect_same() {
    expect "$1" "$(openssl sha256 -r < "$2")" "$(openssl sha256 -r < "$3")"
}

# header NAME: the value of a header of the last reply.
header() {
    tr -d '\r' < "$work/head" | grep -i "^$1:" | sed 's/^[^:]*: *//'
}

# names: the names on the page of the last reply, blobs and groups in their order, with a space between two names.
names() {
    grep -o '<Name>[^<]*' "$work/body" | sed 's/<Name>//' | paste -s -d ' '
}

# next_marker: the marker of the page after the last reply, or nothing.
next_marker() {
    grep -o '<NextMarker>[^<]*' "$work/body" | sed 's/<NextMarker>//'
}

# end_session: prints the counts.
end_session() {
    echo "$passed ok, $failed failed"
    exit $((failed > 0))
}

md5_of() {
    openssl md5 -binary < "$1" | openssl base64 -A
}

# --- Signatures ---

# value_of NAME LINE..: the value in the line NAME:VALUE, or nothing, and a line feed.
value_of() {
    local name=$1 line
    shift
    for line; do
        if [[ $line == "$name:"* ]]; then
            printf '%s' "${line#*:}"
        fi
    done
    echo
}

# string_to_sign METHOD TARGET LINE..: docs/formats/strings-to-sign.md. No parameter of this session is escaped, so none is decoded.
string_to_sign() {
    local method=$1 target=$2 name
    shift 2
    echo "$method"
    for name in Content-Encoding Content-Language Content-Length Content-MD5 Content-Type Date If-Modified-Since If-Match If-None-Match \
        If-Unmodified-Since Range; do
        value_of "$name" "$@"
    done
    printf '%s\n' "$@" | grep '^x-ms-' | sort -t : -k 1,1
    echo "/$STAMP_ACCOUNT${target%%\?*}"
    if [[ $target == *\?* ]]; then
        tr '&' '\n' <<< "${target#*\?}" | sort -t = -k 1,1 | sed 's/=/:/'
    fi
}

# signature KEY TEXT: the HMAC-SHA256 of a text under a key, both the key and the signature in Base64.
signature() {
    local bytes
    bytes=$(openssl base64 -d -A <<< "$1" | od -An -v -tx1 | tr -d ' \n')
    printf '%s' "$2" | openssl dgst -sha256 -mac HMAC -macopt "hexkey:$bytes" -binary | openssl base64 -A
}

# sign METHOD TARGET LINE..: sets `signed` to the headers of a signed request, as words for curl. They are the lines, the version, the date
# and the signature. Content-Length and Range are signed, but are not among the words: curl sends these two itself.
# If `key` or `moment` is set, it is the key or the date.
sign() {
    local method=$1 target=$2 line string
    shift 2
    set -- "$@" x-ms-version:2012-02-12 "x-ms-date:${moment:-$(date -u '+%a, %d %b %Y %H:%M:%S GMT')}"
    # The shell drops the line feed at the end of the string.
    string=$(string_to_sign "$method" "$target" "$@")
    signed=(-H "Authorization: SharedKey $STAMP_ACCOUNT:$(signature "${key:-$STAMP_KEY}" "$string")")
    for line; do
        [[ $line == Content-Length:* || $line == Range:* ]] || signed+=(-H "$line")
    done
}

# --- Requests ---

# ask TARGET WORD..: calls curl with these words. After that `status`, $work/head and $work/body have the reply. If there is no reply, the server
# is gone, and the rest of the session is left out.
ask() {
    local target=$1
    shift
    : > "$work/head"
    : > "$work/body"
    status=$(curl "${common[@]}" -D "$work/head" -o "$work/body" -w '%{http_code}' "$@" "$origin$target" 2> "$work/said")
    if [[ $status == 000 ]]; then
        expect "a request for $target" "$(cat "$work/said")" "a reply"
        end_session
    fi
}

# get TARGET LINE..: a signed request. So are the next three.
get() {
    sign GET "$@"
    ask "$1" "${signed[@]}"
}

get_head() {
    sign HEAD "$@"
    ask "$1" -I "${signed[@]}"
}

delete() {
    sign DELETE "$@"
    ask "$1" -X DELETE "${signed[@]}"
}

# put FILE TARGET LINE..
put() {
    local file=$1
    shift
    sign PUT "$@" "Content-Length:$(($(wc -c < "$file")))"
    ask "$1" -T "$file" "${signed[@]}"
}

# --- The session ---

containers() {
    put "$work/empty" "$container?restype=container" x-ms-meta-season:autumn
    expect_reply "create a container" 201
    put "$work/empty" "$container?restype=container"
    expect_reply "create it again" "409 O2"
    get "$container?restype=container"
    expect_reply "get its properties" 200
    expect "its metadata" "$(header x-ms-meta-season)" autumn
    put "$work/empty" "$container?restype=container&comp=metadata" x-ms-meta-year:2012
    expect_reply "set its metadata" 200
    get "$container?restype=container"
    expect "its metadata after that" "$(header x-ms-meta-season) $(header x-ms-meta-year)" " 2012"
    put "$work/empty" "$open?restype=container" x-ms-blob-public-access:container
    expect_reply "create an open container" 201
    put "$work/empty" "$half?restype=container" x-ms-blob-public-access:blob
    expect_reply "create a half-open container" 201
}

# curl sends Expect: 100-continue with a body of more than 1 MiB.
whole_blobs() {
    put "$work/large" "$blob" x-ms-blob-type:BlockBlob x-ms-blob-content-type:text/plain
    expect_reply "put a blob of 2 MiB by curl -T" 201
    expect "the interim reply before it" "$(grep -c '^HTTP/1.1 100 ' "$work/head")" 1
    expect "the MD5 in the reply" "$(header Content-MD5)" "$(md5_of "$work/large")"
    etag=$(header ETag)
    get "$blob"
    expect_reply "get it" 200
    expect_same "its content" "$work/body" "$work/large"
    expect "its type" "$(header Content-Type)" text/plain
    expect "its ETag" "$(header ETag)" "$etag"
    get_head "$blob"
    expect_reply "HEAD" 200
    expect "the length that HEAD gives" "$(header Content-Length)" 2097152
    put "$work/hello" "$blob" x-ms-blob-type:BlockBlob "Content-MD5:$(md5_of "$work/world")"
    expect_reply "put a content with another MD5" "400 O5"
}

ranges() {
    sign GET "$blob" Range:bytes=1000-2999
    ask "$blob" -r 1000-2999 "${signed[@]}"
    expect_reply "get a range" 206
    expect "the place of the range" "$(header Content-Range)" "bytes 1000-2999/2097152"
    dd if="$work/large" of="$work/part" bs=1000 skip=1 count=2 2> "$work/said"
    expect_same "the content of the range" "$work/body" "$work/part"
    sign GET "$blob" Range:bytes=2097152-
    ask "$blob" -r 2097152- "${signed[@]}"
    expect_reply "get a range after the last byte" "416 O6"
    dd if="$work/large" of="$work/part" bs=1000 count=5 2> "$work/said"
    sign GET "$blob" Range:bytes=5000-
    status=$(curl "${common[@]}" -C - -o "$work/part" -w '%{http_code}' "${signed[@]}" "$origin$blob" 2> "$work/said")
    expect "resume after 5,000 bytes by curl -C -" "$status" 206
    expect_same "the content after that" "$work/part" "$work/large"
}

conditions() {
    get "$blob" "If-None-Match:$etag"
    expect_reply "get the blob if its ETag is another" "304 O4"
    get "$blob" 'If-Match:"0x1"'
    expect_reply "get it if its ETag is one that it never had" "412 O4"
    put "$work/hello" "$blob" x-ms-blob-type:BlockBlob 'If-None-Match:*'
    expect_reply "put it if it does not exist" "409 O4"
    put "$work/hello" "$blob" x-ms-blob-type:BlockBlob "If-Match:$etag"
    expect_reply "put it if its ETag is the same" 201
    put "$work/world" "$blob" x-ms-blob-type:BlockBlob "If-Match:$etag"
    expect_reply "put it by the old ETag" "412 O4"
    get "$blob" "If-None-Match:$etag"
    expect_reply "get it if its ETag is another" 200
    expect_same "the content of the put that was accepted" "$work/body" "$work/hello"
}

# put_list ID..: puts the block list of these ids.
put_list() {
    printf '<BlockList>%s</BlockList>' "$(printf '<Latest>%s</Latest>' "$@")" > "$work/list"
    put "$work/list" "$parts?comp=blocklist" x-ms-meta-parts:two
}

blocks() {
    put "$work/hello" "$parts?comp=block&blockid=QUFB"
    expect_reply "put a block" 201
    put "$work/world" "$parts?comp=block&blockid=QkJC"
    expect_reply "put another block" 201
    get "$parts"
    expect_reply "get the blob before its list is put" "404 O3"
    put_list QUFB QkJC
    expect_reply "put the list of both blocks" 201
    get "$parts"
    expect "the content after that" "$status $(cat "$work/body")" "200 hello, world"
    get "$parts?comp=blocklist&blocklisttype=committed"
    expect "get the block list" "$status $(grep -o '<Block>.*</Block>' "$work/body")" \
        "200 <Block><Name>QUFB</Name><Size>5</Size></Block><Block><Name>QkJC</Name><Size>7</Size></Block>"
    put_list QUFB Q0ND
    expect_reply "put the list of a block that does not exist" "400 O5"
}

metadata() {
    get_head "$parts"
    expect "the metadata of the list" "$status $(header x-ms-meta-parts)" "200 two"
    put "$work/empty" "$parts?comp=metadata" x-ms-meta-colour:red x-ms-meta-colour-of:paper
    expect_reply "set metadata with a name that is not one" "400 F7"
    put "$work/empty" "$parts?comp=metadata" x-ms-meta-colour:red x-ms-meta-size:12
    expect_reply "set metadata" 200
    get "$parts?comp=metadata"
    expect "get metadata" "$status $(header x-ms-meta-colour) $(header x-ms-meta-size) $(header x-ms-meta-parts)" "200 red 12 "
}

# reads_of WHICH CONTAINER BLOB REST: a caller without a credential reads a blob of a container, the properties of the container, and its list.
# BLOB is the answer to the first request, and REST the answer to the two others.
reads_of() {
    ask "$2/note.txt"
    expect_reply "read a blob of the $1 container without a credential" "$3"
    ask "$2?restype=container"
    expect_reply "read the properties of the $1 container without a credential" "$4"
    ask "$2?restype=container&comp=list"
    expect_reply "list the $1 container without a credential" "$4"
}

# Here the level of a container is the one that Create Container gave it.
levels() {
    local it
    for it in "$open" "$half" "$container"; do
        put "$work/hello" "$it/note.txt" x-ms-blob-type:BlockBlob
        expect_reply "put a note into ${it##*/}" 201
    done
    reads_of open "$open" 200 200
    reads_of half-open "$half" 200 "404 P2"
    reads_of closed "$container" "404 P2" "404 P2"
}

# set_level LEVEL: sets the level of the half-open container by Set Container ACL. The empty level closes it.
set_level() {
    put "$work/empty" "$half?restype=container&comp=acl" ${1:+"x-ms-blob-public-access:$1"}
    expect_reply "set the level '$1' by Set Container ACL" 200
    get "$half?restype=container&comp=acl"
    expect "the level that Get Container ACL shows" "$status $(header x-ms-blob-public-access)" "200 $1"
}

other_levels() {
    set_level container
    reads_of "newly opened" "$half" 200 200
    set_level ""
    reads_of "newly closed" "$half" "404 P2" "404 P2"
    set_level blob
    reads_of "again half-open" "$half" 200 "404 P2"
}

# token PATH PERMISSIONS START EXPIRY ID: the query of a token. A `-` stands for what is absent.
token() {
    "$(dirname "$0")/../token" "$STAMP_KEY" "$@"
}

# The policy lets a guest read and list. Its token gives nothing but the name of the policy.
policies() {
    printf '<SignedIdentifiers><SignedIdentifier><Id>guests</Id><AccessPolicy>%s</AccessPolicy></SignedIdentifier></SignedIdentifiers>' \
        "<Expiry>$later</Expiry><Permission>rl</Permission>" > "$work/policies"
    put "$work/policies" "$container?restype=container&comp=acl"
    expect_reply "store a policy" 200
    get "$container?restype=container&comp=acl"
    expect "the policy that Get Container ACL shows" "$status $(grep -o '<Id>.*</Permission>' "$work/body")" \
        "200 <Id>guests</Id><AccessPolicy><Expiry>${later%Z}.0000000Z</Expiry><Permission>rl</Permission>"
    by_policy=$(token "$container" - - - guests)
    ask "$note?$by_policy"
    expect "read by the policy" "$status $(cat "$work/body")" "200 hello"
    ask "$container?restype=container&comp=list&$by_policy"
    expect "list by the policy" "$status $(names)" "200 note.txt parts.txt whole.bin"
    ask "$note?$by_policy" -I
    expect "HEAD by the policy" "$status $(header Content-Length)" "200 5"
}

tokens() {
    for_note=$(token "$note" rwd - "$later" -)
    ask "$note?$for_note" -T "$work/world" -H x-ms-blob-type:BlockBlob
    expect_reply "put a blob by a token for it" 201
    ask "$note?$for_note"
    expect "read it by the same token" "$status $(cat "$work/body")" "200 , world"
    ask "$note?$for_note" -X DELETE
    expect_reply "delete it by the same token" 202
    put "$work/hello" "$note" x-ms-blob-type:BlockBlob
    expect_reply "put it by the key" 201
}

# A bad token is refused even if everybody may read the blob.
denied_tokens() {
    ask "$note?$by_policy" -T "$work/hello" -H x-ms-blob-type:BlockBlob
    expect_reply "a put by a policy that lets read and list" "403 S11"
    ask "$container?restype=container&$by_policy"
    expect_reply "the properties of the container by a token" "403 S10"
    ask "$account?comp=list&$by_policy"
    expect_reply "a list of containers by a token" "403 S3"
    ask "$parts?$for_note"
    expect_reply "a token for another blob" "403 S4"
    ask "$half/note.txt?$by_policy"
    expect_reply "a token for another container, whose blobs are open" "403 S4"
    ask "$note?${for_note/sp=rwd/sp=rwdl}"
    expect_reply "a token to which a letter was added" "403 S4"
    ask "$note?$(token "$note" r - "$before" -)"
    expect_reply "a token that is over" "403 S9"
    ask "$note?$(token "$container" r - - guests)"
    expect_reply "a token that gives what its policy gives" "403 S6"
}

policy_taken_back() {
    put "$work/empty" "$container?restype=container&comp=acl"
    expect_reply "take the policy back" 200
    ask "$note?$by_policy"
    expect_reply "read by it after that" "403 S5"
    ask "$note?$for_note"
    expect_reply "read by a token without a policy after that" 200
    put "$work/policies" "$container?restype=container&comp=acl"
    expect_reply "store the policy again" 200
    ask "$note?$by_policy"
    expect_reply "read by it again" 200
}

# pages_of HOW TARGET: asks for a list by `get` or by `ask`, and follows its markers. After that `pages` has the names on each page, with a bar
# between two pages. No list of this session has more than ten pages.
pages_of() {
    local marker= number
    pages=
    for number in {1..10}; do
        "$1" "$2${marker:+&marker=$marker}"
        pages+="${pages:+ | }$(names)"
        marker=$(next_marker)
        [[ $marker ]] || break
    done
}

lists_of_blobs() {
    local name list="$container?restype=container&comp=list"
    for name in readme.txt 2012/rome.jpg 2012/lima.jpg 2012/bern.jpg 2011/oslo.jpg 2011/kiev.jpg; do
        put "$work/hello" "$container/pics/$name" x-ms-blob-type:BlockBlob x-ms-meta-season:autumn
        expect_reply "put $name" 201
    done
    pages_of get "$list&prefix=pics/&delimiter=/&maxresults=2"
    expect "folders, two on a page" "$pages" "pics/2011/ pics/2012/ | pics/readme.txt"
    pages_of get "$list&prefix=pics/&delimiter=/&maxresults=1"
    expect "folders, one on a page" "$pages" "pics/2011/ | pics/2012/ | pics/readme.txt"
    pages_of ask "$list&prefix=pics/2012/&delimiter=/&maxresults=2&$by_policy"
    expect "a folder that a guest opens by the policy" "$pages" "pics/2012/bern.jpg pics/2012/lima.jpg | pics/2012/rome.jpg"
    pages_of get "$list&prefix=p&maxresults=4"
    expect "names that begin alike" "$pages" \
        "parts.txt pics/2011/kiev.jpg pics/2011/oslo.jpg pics/2012/bern.jpg | pics/2012/lima.jpg pics/2012/rome.jpg pics/readme.txt"
    pages_of get "$list&delimiter=/"
    expect "the whole container, without what is in its folder" "$pages" "note.txt parts.txt pics/ whole.bin"
    pages_of get "$list&prefix=none"
    expect "a prefix that no name has" "$status $pages" "200 "
}

# entry NAME: what the last reply tells of a name.
entry() {
    grep -o "<Name>$1</Name>.*" "$work/body" | sed 's/<Name>[^<]*<.Name>//; s/<.Blob>.*//; s/<.Container>.*//'
}

entries() {
    local told
    get_head "$container/pics/2011/oslo.jpg"
    told="<Properties><Last-Modified>$(header Last-Modified)</Last-Modified><Etag>$(header ETag)</Etag><Content-Length>5</Content-Length>"
    told+="<Content-Type>application/octet-stream</Content-Type><BlobType>BlockBlob</BlobType></Properties><Metadata><season>autumn</season></Metadata>"
    get "$container?restype=container&comp=list&prefix=pics/2011/&include=metadata"
    expect "what a list tells of a blob" "$(entry pics/2011/oslo.jpg)" "$told"
    get "$container?restype=container"
    told="<Properties><Last-Modified>$(header Last-Modified)</Last-Modified><Etag>$(header ETag)</Etag></Properties>"
    get "$account?comp=list&prefix=${container##*/}&include=metadata"
    expect "what a list tells of a container" "$(entry "${container##*/}")" "$told<Metadata><year>2012</year></Metadata>"
}

lists_of_containers() {
    local name=${container##*/}
    pages_of get "$account?comp=list&prefix=$name&maxresults=1"
    expect "the containers, one on a page" "$pages" "$name | $name-half | $name-open"
    pages_of get "$account?comp=list&prefix=$name-&maxresults=2"
    expect "the containers but the first" "$pages" "$name-half $name-open"
}

denials() {
    key=$STAMP_KEY2 get "$blob"
    expect_reply "the second key" 200
    key=$(openssl base64 -A <<< "another key") get "$blob"
    expect_reply "a wrong key" "403 K5"
    expect "the code in the body" "$(grep -o '<Code>.*</Code>' "$work/body")" "<Code>AuthenticationFailed</Code>"
    moment='Mon, 01 Oct 2012 12:00:00 GMT' get "$blob"
    expect_reply "an old date" "403 K4"
    ask "$blob" -H 'Authorization: Bearer token'
    expect_reply "another scheme of authorization" "400 K1"
    ask "$blob" -T "$work/hello" -H x-ms-blob-type:BlockBlob
    expect_reply "a put without a credential" "404 P1"
    ask "$half?restype=container&comp=acl"
    expect_reply "a Get Container ACL without a credential" "404 P1"
    ask "$account?comp=list"
    expect_reply "a list of containers without a credential" "404 P1"
    get "$account?comp=list&maxresults=0"
    expect_reply "a list without entries" "400 F3"
    get_head "$account?comp=list"
    expect_reply "a list by HEAD" "400 F3"
    ask "$blob" -T - -H x-ms-blob-type:BlockBlob < "$work/hello"
    expect_reply "a chunked put by curl -T -" "411 F4"
    ask "$blob" -X PATCH
    expect_reply "PATCH" "405 F2"
    ask "$blob" -H x-ms-version:2019-12-12
    expect_reply "a newer version" "400 F6"
}

one_connection() {
    local url=$origin$half/note.txt
    curl "${common[@]}" -w '%{http_code} %{num_connects}\n' -o "$work/body" -o "$work/part" "$url" "$url" > "$work/codes" 2> "$work/said"
    expect "two requests on one connection" "$(paste -s -d ' ' "$work/codes")" "200 1 200 0"
}

deletions() {
    delete "$blob"
    expect_reply "delete the blob" 202
    get "$blob"
    expect_reply "get it after that" "404 O3"
    delete "$open?restype=container"
    expect_reply "delete the open container" 202
    delete "$half?restype=container"
    expect_reply "delete the half-open container" 202
    delete "$container?restype=container"
    expect_reply "delete the closed container" 202
    get "$parts"
    expect_reply "get a blob of the closed container after that" "404 O1"
}

for part in containers whole_blobs ranges conditions blocks metadata levels other_levels policies tokens denied_tokens policy_taken_back \
    lists_of_blobs entries lists_of_containers denials one_connection deletions; do
    "$part"
done
end_session
