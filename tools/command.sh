# command.sh, to be sourced where root, and me for the command's name, are set: what the commands of
# this tree share.
#
#   fail WORDS      ends with status 3, which stands for everything that keeps an answer away
#   put TEXT        writes a text and a newline to standard output
#   put_and_end     does so and ends with status 0
#   put_version     does so with the version that the header has
#   use NAME        runs tools/NAME.sh
#   input           closed where standard input is, else open

fail() {
    printf '%s: %s\n' "$me" "$1" >&2
    exit 3
}

# A reader that has gone is no cause for words.
put() {
    printf '%s\n' "$1" 2>/dev/null | cat 2>/dev/null
    case $? in
    0) ;;
    141) exit 3 ;;
    *) fail "standard output cannot be written" ;;
    esac
}

put_and_end() {
    put "$1"
    exit 0
}

put_version() {
    version=$(sed -n 's/^#define TAWINRAK_VERSION "\(.*\)"$/Tawinrak \1/p' "$root/include/tawinrak.h")
    [ -n "$version" ] || fail "the version cannot be told"
    put_and_end "$version"
}

use() {
    [ -r "$root/tools/$1.sh" ] || fail "$root/tools/$1.sh cannot be read"
    . "$root/tools/$1.sh"
}

# A stream that is closed must not come to stand for a file or a pipe opened later.
input=open
true 3>&2 || exec 2>/dev/null
{ true 3<&0; } 2>/dev/null || { input=closed && exec </dev/null; }
{ true 3>&1; } 2>/dev/null || fail "standard output is closed"
