# What ./demo and ./demo-serve share: how they say what held, the messages of the protocol, and what controldata tells. They
# set `program`, and `failed` to 0, and work in a folder of their own.

# Says what was looked at, and whether it held.
check() {
    local what=$1
    shift
    if "$@"; then
        echo "   ok  $what"
    else
        echo "FAILED $what"
        failed=1
    fi
}

# The bytes of these numbers, which are hexadecimal.
bytes() {
    local number
    for number in "$@"; do
        printf "\\x$number"
    done
}

# A number as four bytes, the greatest first.
word() {
    printf "\\x$(printf '%02x' $(($1 >> 24 & 255)))\\x$(printf '%02x' $(($1 >> 16 & 255)))"
    printf "\\x$(printf '%02x' $(($1 >> 8 & 255)))\\x$(printf '%02x' $(($1 & 255)))"
}

# A message with this type and this text, and a zero byte after the text.
message() {
    printf '%s' "$1"
    word $((${#2} + 5))
    printf '%s\0' "$2"
}

# A server's parameter, as the greeting tells it.
parameter() {
    printf S
    word $((${#1} + ${#2} + 6))
    printf '%s\0%s\0' "$1" "$2"
}

# The startup packet of this user, or of ann.
startup() {
    local user=${1:-ann}
    word $((${#user} + 15))
    bytes 00 03 00 00
    printf 'user\0%s\0\0' "$user"
}
query() { message Q "$1"; }
terminate() { bytes 58 00 00 00 04; }
ready() { bytes 5a 00 00 00 05 49; }

# The greeting of the session with this pid, or with pid 4. Its key is drawn anew for each run: here it is four zero bytes.
greeting() {
    bytes 52 00 00 00 08 00 00 00 00
    parameter server_version 16.0
    parameter server_encoding UTF8
    parameter client_encoding UTF8
    parameter DateStyle 'ISO, MDY'
    parameter integer_datetimes on
    parameter standard_conforming_strings on
    bytes 4b 00 00 00 0c
    word "${1:-4}"
    bytes 00 00 00 00
    ready
}
key_at=181

# The columns of a row.
columns() {
    bytes 54 00 00 00 2e 00 02
    bytes 6b 00 00 00 00 00 00 00 00 00 00 14 00 08 ff ff ff ff 00 00
    bytes 76 00 00 00 00 00 00 00 00 00 00 19 ff ff ff ff ff ff 00 00
}

# The answer to a query for the row 7|seven.
selected() {
    columns
    bytes 44 00 00 00 14 00 02 00 00 00 01 37 00 00 00 05 73 65 76 65 6e
    message C 'SELECT 1'
    ready
}

# A server's message of this type and severity, with this code and text.
report() {
    printf '%s' "$1"
    word $((2 * ${#2} + ${#3} + ${#4} + 13))
    printf 'S%s\0V%s\0C%s\0M%s\0\0' "$2" "$2" "$3" "$4"
}
told_as() { report E "$@"; }
warning() { report N WARNING "$@"; }
error() { told_as ERROR "$1" "$2"; }

# The file with zero bytes in place of the key.
without_key() {
    head -c "$key_at" "$1"
    bytes 00 00 00 00
    tail -c +$((key_at + 5)) "$1"
}

# Prints each message of a reply: its type, its length, and what of it can be read.
show() {
    local at=0 length all
    all=($(od -An -v -tx1 "$1"))
    while [ $((at + 4)) -lt "${#all[@]}" ]; do
        length=$((16#${all[at + 1]}${all[at + 2]}${all[at + 3]}${all[at + 4]}))
        printf '       %b  %3d  ' "\\x${all[at]}" "$length"
        head -c $((at + 1 + length)) "$1" | tail -c +$((at + 6)) | tr -c '[:print:]' '.'
        echo
        at=$((at + 1 + length))
    done
}

# Keeps what controldata tells of the cluster, or of this one, in the variables file, epoch, clean, commits, rows and
# batches.
ask() {
    file='' epoch='' clean='' commits=0 rows=0 batches=''
    "$program" controldata --data "${1:-cluster}" >told || true
    { read -r _ file && read -r _ epoch && read -r _ clean && read -r _ commits && read -r _ rows && read -r _ batches; } <told || true
}

# Shows it as well.
look() {
    ask "$@"
    sed 's/^/       /' told
}

# Whether controldata told so.
told() { [ "$file $epoch $clean $commits $rows $batches" = "$*" ]; }

# Whether the second number is at least the first, and at most the third.
within() { [ "$1" -le "$2" ] && [ "$2" -le "$3" ]; }

# How often this text stands in the file.
count() { { grep -a -o "$1" "$2" || true; } | wc -l; }

# The lines of a server that was asked to shut down, and the first line of a log.
up='database system is ready to accept connections'
asked='received smart shutdown request'
down='database system is shut down'
