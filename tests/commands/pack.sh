# pack.sh: texts for ./pack, its arguments and its streams.

# The words for a text on standard input, status 1 and no output.
faults() { # TEXT WORDS
    answers 1 "" "$2${newline}nothing is written$newline" shell "printf '$1' | \"\$made/make_record.sh\""
}

faulty_text() { # NAME
    ends_with 1 "$root/pack" "$root/tests/commands/texts/$1.txt" >"$made/output" 2>"$made/words" &&
        diff "$root/tests/commands/texts/$1.words" "$made/words" && [ ! -s "$made/output" ]
}

# Whether the text of a folder is packed into the record beside it.
packed() { # NAME
    "$root/pack" "$root/$1.txt" | cmp - "$root/$1.record"
}

# A term for each number from 1 on, with as many observations each, and four channels where so many are asked for.
terms() { # TERMS OBSERVATIONS [CHANNELS]
    awk -v terms="$1" -v most="$2" -v channels="${3:-1}" 'BEGIN {
        kernels = channels == 4 ? "kernel 1 kernel 2 kernel 3 kernel 1 samples shares" : "kernel 1"
        further = channels == 4 ? " 2 3 0.5" : ""
        for (i = 1; i <= terms; i++) {
            print "term", i, kernels, "dmax 1"
            for (j = 1; j <= most; j++) print j, j % 7 further
        }
    }'
}

# Terms of one channel, and behind them one of two, for which every entry of the file grows.
grown_terms() { # OBSERVATIONS
    terms 63 84
    awk -v most="$1" 'BEGIN {
        print "term 64 kernel 1 kernel 1 dmax 1"
        for (j = 1; j <= most; j++) print j, 5, 5
    }'
}

made_of() { # TEXT
    "$made/make_record.sh" <"$1" >"$made/output" && [ "$(wc -c <"$made/output")" -le 65536 ]
}

many_faults() {
    { echo 'term 1 kernel 1 dmax 1' && yes x | head -n 150; } | ends_with 1 "$made/make_record.sh" 2>"$made/words" || return
    [ "$(grep -c '^line' "$made/words")" = 100 ] &&
        [ "$(tail -n 2 "$made/words")" = "and 50 faults more${newline}nothing is written" ]
}

# The line ends in so many blanks and a carriage return; one more in the midst of it is no end.
long_line() { # BLANKS
    printf "term 1 kernel linear dmax 1\r\n1 5%$1s\r\n" '' | "$made/make_record.sh" >"$made/output"
}

endless_text() { yes '# more' | ends_with 1 "$made/make_record.sh" 2>&1 | grep -q ': the text is longer than 16,777,216 bytes$'; }

# Also makes a text and its file. The link stands outside the checkout: rt ci takes none within it.
pack_through_a_link() {
    terms 2 3 >"$made/text" && "$made/make_record.sh" <"$made/text" >"$made/text.record" || return
    links=$(mktemp -d) && ln -s "$root/pack" "$links/pack_link" || return
    (cd / && "$links/pack_link" - <"$made/text") | cmp - "$made/text.record"
    ended=$?
    rm -rf "$links"
    return "$ended"
}

pack_reader_gone() {
    into_closed_pipe : '"$root/pack" "$root/examples/year.txt"'
    [ "$(cat "$made/status")" = 3 ] && [ ! -s "$made/complaint" ]
}

packed_and_cut() { # NAME
    "$root/pack" "$root/examples/$1.txt" >"$made/$1.record" && "$root/cuts" --dates "$made/$1.record" >"$made/$1.lines"
}

# Whether README shows what is on standard input.
in_the_readme() {
    shown=$(sed 's/^/    /')
    [ -n "$shown" ] || return
    case $(cat "$root/README.md") in *"$shown"*) ;; *) echo "$shown" && return 1 ;; esac
}

# Whether README shows the lines that an example prints, and those of its text from one pattern to the next.
shown() { # NAME FROM TO
    in_the_readme <"$made/$1.lines" && sed -n "/$2/,/$3/p" "$root/examples/$1.txt" | in_the_readme
}

# Where one channel of the example of three is cut in three segments by itself.
cut_alone() { # FIELD CHANNEL...
    field=$1
    shift
    awk -F '[, ]+' -v field="$field" -v channel="$*" '/^term/ { print "term 7", channel, "dmax 3" } /^2026/ { print $1, $field }' \
        "$root/examples/three.txt" | "$made/make_record.sh" >"$made/alone.record" &&
        "$root/cuts" --dates "$made/alone.record" | awk '$1 == 3 { print $3, $4 }'
}

check_worked_examples() {
    for name in spring three; do check "the worked example $name" packed_and_cut "$name"; done
    check "the worked example spring in README" shown spring '^# clicks' '^2026-03-02'
    check "the worked example three in README" shown three '^term' '^2026-09-02'
    check "the example of three is made of its text" packed examples/three
    check "queries cut alone" prints "12:2026-09-12 18:2026-09-18$newline" cut_alone 2 kernel linear
    check "clicks cut alone" prints "8:2026-09-08 20:2026-09-20$newline" cut_alone 3 kernel energy samples rounded-shares
    check "saved patterns cut alone" prints "6:2026-09-06 19:2026-09-19$newline" cut_alone 4 kernel linear
}

pack_refuses() { # WORDS
    answers 1 "" "$1${newline}nothing is written$newline" "$root/pack" "$made/text"
}

# Texts that are as long as may be, and longer.
check_lengths() {
    many="the count of records is 0 or above 64, or the form is unknown or has no room for several channels (code 21)"
    terms 1 401 >"$made/text" && check "401 observations" pack_refuses "line 1: there are more than 400 observations (code 2)"
    terms 1 401 4 >"$made/text" && check "401 observations of four channels" pack_refuses "line 1: there are more than 400 observations (code 2)"
    terms 65 1 >"$made/text" && check "65 terms" pack_refuses "line 129: $many"
    terms 14 390 >"$made/text" && check "a file that is too long" pack_refuses "line 5462: the file is longer than 65,536 bytes (code 26)"
    terms 64 27 4 >"$made/text" && check "64 terms of four channels" made_of "$made/text"
    terms 64 28 4 >"$made/text" && check "a file of four channels that is too long" pack_refuses "line 1851: the file is longer than 65,536 bytes (code 26)"
    grown_terms 40 >"$made/text" && check "a late term of two channels" made_of "$made/text"
    grown_terms 41 >"$made/text" && check "a late term of two channels that is too long" pack_refuses "line 5397: the file is longer than 65,536 bytes (code 26)"
}

check_packing() {
    for name in faulty channels_faulty; do check "a text with every fault: $name" faulty_text "$name"; done
    for name in edges channels; do check "a text at the edges: $name" packed "tests/commands/texts/$name"; done
    check "an empty text" faults '' "line 1: the text has no line that begins with term"
    check "a carriage return within a line" faults 'term 1 kernel 1 dmax 1\n1 5\r 9\n' "line 2: the line holds a byte that is no text"
    check "a byte that is no text" faults 'term 1 kernel 1 dmax 1\n1 5\000\n' "line 2: the line holds a byte that is no text"
    check "more faults than are told" many_faults
    check "a line of 1,000 bytes" long_line 997
    check "a line of 1,001 bytes" ends_with 1 long_line 998
    check "a text without end" endless_text
    check_lengths
    for option in -h --help; do check "pack $option" usage_of "$root/pack" "$option"; done
    for name in "" /nowhere "$made"; do check "a text that cannot be read: '$name'" ends_with 3 shell "\"\$root/pack\" '$name' >/dev/null"; done
    check "pack through a link, of standard input" pack_through_a_link
    check "pack of a name that begins with a dash" shell 'cd "$made" && cp text ./-x && "$root/pack" -- -x | cmp - text.record'
    check "pack into a reader that is gone" pack_reader_gone
    check "pack without a text" ends_with 3 shell '"$root/pack" >/dev/null'
    check "pack of two texts" ends_with 3 shell '"$root/pack" a b >/dev/null'
    check "make_record of two texts" ends_with 3 shell '"$made/make_record.sh" a b >/dev/null'
    check "pack on a full disk" ends_with 3 shell '"$root/pack" "$root/examples/year.txt" >/dev/full'
    check "pack with standard input closed" ends_with 3 shell '"$root/pack" - <&- >/dev/null'
    check "pack with standard output closed" ends_with 3 shell '"$root/pack" "$root/examples/year.txt" >&-'
    check_worked_examples
}
