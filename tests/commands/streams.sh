# streams.sh: arguments and streams of ./cuts.

# Status 3, nothing printed, and why.
unread() { # NAME
    ends_with 3 "$root/cuts" "$1" >"$made/output" 2>"$made/words" && [ ! -s "$made/output" ] && grep -q '^cuts: ' "$made/words"
}

# The links stand outside the checkout: rt ci takes none within it.
through_a_link() {
    links=$(mktemp -d) && ln -s "$root/cuts" "$links/link" && ln -s link "$links/link_to_link" || return
    (cd / && prints "$year" "$links/link_to_link") && (PATH=$links:$PATH && cd "$links" && prints "$year" link_to_link)
    ended=$?
    rm -rf "$links"
    return "$ended"
}

reader_gone() { # WORDS SAID
    into_closed_pipe "$1" '"$root/cuts" "$made/long.record"'
    [ "$(cat "$made/status")" = 3 ] && [ "$(cat "$made/complaint")" = "$2" ] || {
        cat "$made/status" "$made/complaint"
        return 1
    }
}

example_reader_gone() {
    into_closed_pipe : '"$root/examples/run" "$made/long.record"'
    [ "$(cat "$made/status")" = 3 ] && [ ! -s "$made/complaint" ]
}

check_arguments() {
    check "a refused term beside one that is done" one_of_two
    check "the example without arguments" answers 0 "$year" "" "$root/cuts"
    check "standard input" answers 0 "$year" "" shell '"$root/cuts" - <"$root/examples/year.record"'
    check "a name that begins with a dash" shell 'cd "$made" && cp rules.record ./-x && "$root/cuts" -- -x'
    for option in -h --help; do check "$option" usage_of "$root/cuts" "$option"; done
    check "an unknown option" answers 3 "" "cuts: there is no option --cut; ./cuts --help lists them$newline" "$root/cuts" --cut
    check "two files" answers 3 "" "cuts: one file at a time, and 2 are named$newline" "$root/cuts" a b
    for name in "" /nowhere "$made"; do check "a file that cannot be read: '$name'" unread "$name"; done
    check "through a link" through_a_link
}

check_streams() {
    check "standard input closed" answers 3 "" "cuts: standard input is closed$newline" shell '"$root/cuts" - <&-'
    check "standard input closed, and a file" answers 0 "$year" "" shell '"$root/cuts" <&-'
    check "standard output closed" answers 3 "" "cuts: standard output is closed$newline" shell '"$root/cuts" >&-'
    check "standard error closed" answers 0 "$year" "" shell '"$root/cuts" 2>&-'
    check "standard error closed, a refusal" answers 2 "file code 20 place 0 at 0$newline" "" shell '"$root/cuts" "$made/20.record" 2>&-'
    check "all streams closed" ends_with 3 shell '"$root/cuts" - <&- >&- 2>&-'
    check "a full disk" answers 3 "" "cuts: standard output cannot be written$newline" shell '"$root/cuts" >/dev/full'
    check "a full disk for help" ends_with 3 shell '"$root/cuts" --help >/dev/full'
    check "a full disk for sentences" answers 2 "file code 20 place 0 at 0$newline" "" shell '"$root/cuts" "$made/20.record" 2>/dev/full'
    check "a full disk for why there is no answer" ends_with 3 shell '"$root/cuts" /nowhere 2>/dev/full'
    check "a reader that is gone" reader_gone : ""
    check "a reader that is gone, SIGPIPE ignored" reader_gone "trap '' PIPE" "cuts: standard output cannot be written"
    check "examples/run" answers 0 "$year" "" "$root/examples/run"
    check "examples/run into a reader that is gone" example_reader_gone
    check "the C example on a full disk" ends_with 3 shell '"$made/cuts_of_file.sh" <"$root/examples/year.record" >/dev/full'
    check "the C example without input" ends_with 3 shell '"$made/cuts_of_file.sh" <&-'
    check "the C example on a folder" ends_with 3 shell '"$made/cuts_of_file.sh" <"$made"'
}
