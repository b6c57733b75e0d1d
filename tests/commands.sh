# commands.sh, to be sourced by run where root is set: ./cuts and ./pack as they are typed. Uses what
# checks.sh has, made, and the programs of run.

. "$root/tests/commands/words.sh"
. "$root/tests/commands/refusals.sh"
. "$root/tests/commands/streams.sh"
. "$root/tests/commands/building.sh"
. "$root/tests/commands/pack.sh"

# Holds a command to its status, and to what it writes to standard output and standard error.
answers() { # STATUS OUTPUT WORDS COMMAND...
    wanted="status $1, output$newline$2words$newline$3"
    shift 3
    status=0
    "$@" >"$made/output" 2>"$made/words" || status=$?
    got="status $status, output$newline$(cat "$made/output"; echo words; cat "$made/words"; echo end)"
    [ "$got" = "${wanted}end" ] || {
        printf 'wanted:\n%s\ngot:\n%s\n' "$wanted" "${got%end}"
        return 1
    }
}

# Holds a command to its status alone, and shows what it says where that is another.
ends_with() { # STATUS COMMAND...
    wanted=$1 status=0
    shift
    "$@" || status=$?
    [ "$status" = "$wanted" ] || { echo "status $status, not $wanted" && return 1; }
}

# Runs words of the shell.
shell() ( eval "$1" )

usage_of() { "$@" | head -n 1 | grep -q "^usage: "; }

check_commands() {
    year=$("$made/cuts.sh" <"$root/examples/year.record")$newline
    check_words
    check_refusals
    check_arguments
    check_streams
    check_building
    check_packing
}
