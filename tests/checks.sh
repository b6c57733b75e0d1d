# checks.sh, to be sourced by run: what is tried beside the harness's cases. Counts in
# passed and failed. Uses root, made, rust, real, ARCHIVE and the programs that run has made.

passed=0 failed=0
newline='
'

check() { # NAME COMMAND...
    checked=$1
    shift
    if "$@" >"$made/check.out" 2>&1; then
        passed=$((passed + 1))
    else
        failed=$((failed + 1))
        echo "FAILED $checked"
        sed 's/^/  /' "$made/check.out"
    fi
}

# Holds the text of a command to the text given.
prints() { # TEXT COMMAND...
    wanted=$1
    shift
    printed=$("$@"; echo end)
    [ "$printed" = "${wanted}end" ] || {
        printf 'wanted:\n%sgot:\n%s\n' "$wanted" "${printed%end}"
        return 1
    }
}

# ---- the archive and the header

needs_only_memory_functions() {
    "$NM" "$ARCHIVE" | awk '
        NF == 2 && $1 == "U" { used[$2] = 1 }
        NF == 3 { defined[$3] = 1 }
        END {
            split("memcpy memmove memset memcmp bcmp _GLOBAL_OFFSET_TABLE_", known, " ")
            for (i in known) defined[known[i]] = 1
            for (name in used) if (!(name in defined)) { print "needs " name; bad = 1 }
            exit bad
        }'
}

has_no_state() { ! "$NM" "$ARCHIVE" | grep -E '^[0-9a-f]+ [BbCDdGgSs] '; }

has_the_functions() {
    for function in solve read_cuts read_file write_file summarize; do
        "$NM" "$ARCHIVE" | grep -q " T tawinrak_$function\$" || {
            echo "tawinrak_$function is missing"
            return 1
        }
    done
}

header_alone() { # LANGUAGE COMPILER...
    language=$1
    shift
    "$@" -x "$language" -Wall -Wextra -pedantic -Werror -fsyntax-only "$root/include/tawinrak.h"
}

check_archive() {
    check "the archive needs memory functions only" needs_only_memory_functions
    check "the archive keeps no state" has_no_state
    check "the archive has the functions" has_the_functions
    check "calls at the same time" "$made/together.sh"
    check "the largest positions" "$made/positions.sh"
    check "the header in C" header_alone c "$CC" -std=c11
    if command -v c++ >/dev/null 2>&1; then check "the header in C++" header_alone c++ c++ -std=c++11; fi
}

# ---- cuts at the edges of its input and output

cuts_of() { "$made/cuts.sh" <"$1"; }

cuts_of_endless_pipe() { yes 2>/dev/null | "$made/cuts.sh"; }

# A file of 64 records whose text is longer than a pipe holds.
make_long_file() {
    awk 'BEGIN {
        for (i = 0; i < 64; i++) {
            print "term", i, "kernel 3 dmax 12"
            for (j = 0; j < 84; j++) print 1000000000 + j, (i + 1) * j * j % 1009
        }
    }' | "$made/make_record.sh" >"$made/long.record"
}

# Whether a program that ended with the status was neither out of time nor crashed.
ended() { # STATUS
    [ "$1" -lt 124 ] || [ "$1" -eq 141 ] || {
        echo "ended with status $1"
        return 1
    }
}

# Runs words of the shell into a pipe that no one reads any more, having run other words in their
# shell; their status and what they say are left in files.
into_closed_pipe() { # BEFORE WORDS
    rm -f "$made/status"
    {
        sleep 0.3
        (
            eval "$1"
            status=0
            eval "$2" 2>"$made/complaint" || status=$?
            echo "$status" >"$made/status"
        )
    } | true
    while [ ! -s "$made/status" ]; do sleep 0.1; done
}

closed_pipe() { # BEFORE
    into_closed_pipe "$1" '"$made/cuts.sh" <"$made/long.record"'
    cat "$made/complaint"
    [ ! -s "$made/complaint" ] && ended "$(cat "$made/status")"
}

full_output() {
    status=0
    "$made/cuts.sh" <"$made/long.record" >/dev/full 2>/dev/null || status=$?
    ended "$status"
}

no_input() {
    status=0
    "$made/cuts.sh" <&- >/dev/null 2>&1 || status=$?
    ended "$status"
}

check_cuts() {
    check "cuts on an empty input" prints "file code 20 place 0 at 0$newline" cuts_of /dev/null
    check "cuts on an endless input" prints "file code 26 place 0 at 0$newline" cuts_of /dev/zero
    check "cuts on an endless pipe" prints "file code 26 place 0 at 0$newline" cuts_of_endless_pipe
    check "cuts into a closed pipe" closed_pipe :
    check "cuts into a closed pipe, SIGPIPE ignored" closed_pipe "trap '' PIPE"
    check "cuts into a full device" full_output
    check "cuts without an input" no_input
}

# ---- the examples

rules_example() {
    printf '\001\000\005\000\001\000\002\000\003\000\016\000\000\000'
    printf '\012\000\000\000\000\000\000\000\000\000\000\000'
    printf '\013\000\000\000\000\000\000\000\000\000\000\000'
    printf '\016\000\000\000\012\000\000\000\000\000\000\000'
}

# Whether the C example and the second program print what cuts prints.
same_text() { # FILE
    "$made/cuts.sh" <"$1" >"$made/cuts.text"
    "$made/cuts_of_file.sh" <"$1" | diff "$made/cuts.text" - && "$rust/second" <"$1" | diff "$made/cuts.text" -
}

example_is_made() { # NAME
    "$made/make_record.sh" <"$root/examples/$1.txt" | cmp - "$root/examples/$1.record"
}

make_files() {
    rules_example >"$made/rules.record"
    check "a long file" make_long_file
}

check_examples() {
    check "the rules' example" prints "term 5 code 0 place 0${newline}1 273066${newline}2 0 2:12${newline}" \
        cuts_of "$made/rules.record"
    check "the rules' example in C" same_text "$made/rules.record"
    check "the year in C" same_text "$root/examples/year.record"
    check "a long file in C" same_text "$made/long.record"
    check "the year is made of its text" example_is_made year
    check "the term of three channels in C" same_text "$root/examples/three.record"
    check "the term of three channels is made of its text" example_is_made three
}

# The program cuts and the scripts are tried only where they are the real ones.
run_checks() {
    make_files
    check_archive
    if [ -n "$real" ]; then
        check_cuts
        check_commands
    fi
    check_examples
    echo "checks beside the cases: $passed passed, $failed failed"
}
