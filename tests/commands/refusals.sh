# refusals.sh: every refusal that a file can meet, as ./cuts and the C example tell it.

# Puts bytes into places of a file.
put_bytes() { # NAME [OFFSET OCTAL]...
    file=$made/$1.record
    shift
    while [ $# -gt 0 ]; do
        printf "$2" | dd of="$file" bs=1 seek="$1" conv=notrunc 2>/dev/null
        shift 2
    done
}

# The rules' example with bytes put into other places.
with_bytes() { # NAME [OFFSET OCTAL]...
    cp "$made/rules.record" "$made/$1.record"
    put_bytes "$@"
}

# Two entries with the example's fields and one with its body, and bytes put into other places.
with_two_entries() { # NAME [OFFSET OCTAL]...
    { printf '\002\000' && tail -c +3 "$made/rules.record" | head -c 12 && tail -c +3 "$made/rules.record"; } >"$made/$1.record"
    put_bytes "$1" 10 '\032'
    put_bytes "$@"
}

# The rules' example with a second channel, and bytes put into other places.
with_channels() { # NAME [OFFSET OCTAL]...
    printf 'term 5 kernel linear kernel energy dmax 2\n10 0 0\n11 0 0\n14 10 10\n' | "$made/make_record.sh" >"$made/$1.record" &&
        put_bytes "$@"
}

# The rules' example in form 1.
in_form_1() {
    printf '\001\001\005\000\001\001\000\000\000\000\000\000\000\002\000\003\000\025\000\000\000' >"$made/form_1.record" &&
        tail -c +15 "$made/rules.record" >>"$made/form_1.record"
}

make_refused_files() {
    head -c 1 "$made/rules.record" >"$made/20.record"
    with_bytes 21 0 '\000'
    with_bytes 22 10 '\017'
    with_bytes 22_and_28 8 '\004' 10 '\017'
    with_two_entries 22_later 14 '\006'
    with_two_entries 23
    with_bytes 24 5 '\002'
    { cat "$made/rules.record" && echo; } >"$made/25.record"
    head -c 65537 /dev/zero >"$made/26.record"
    with_bytes 28 8 '\004'
    head -c 49 "$made/rules.record" >"$made/28_cut.record"
    with_two_entries 28_later 14 '\006' 22 '\076'
    make_files_of_refused_terms
    make_refused_files_of_channels
}

make_refused_files_of_channels() {
    with_bytes 21_form 1 '\002'
    with_channels 22_form_1 17 '\026'
    with_channels 24_second 8 '\002'
    with_channels 24_unused 12 '\001'
    with_channels 28_form_1 15 '\004'
    with_channels 29 4 '\000'
    with_channels 29_five 4 '\005'
    with_channels 6_second 7 '\004'
    with_channels 9_second 8 '\001' 39 '\360\377'
    with_channels 10_second 53 '\101\102\017'
    with_channels 11_second 8 '\001'
}

make_files_of_refused_terms() {
    with_bytes 1 8 '\000'
    truncate -s 14 "$made/1.record"
    with_bytes 2 8 '\221\001'
    truncate -s $((14 + 12 * 401)) "$made/2.record"
    with_bytes 4 6 '\015'
    with_bytes 5 6 '\004'
    with_bytes 6 4 '\011'
    with_bytes 8 38 '\013'
    with_bytes 9 5 '\001' 24 '\370\177'
    with_bytes 10 30 '\101\102\017'
    with_bytes 11 5 '\001'
}

# Whether ./cuts and the C example tell the refusal of a file alike, by the status, the line and the sentence,
# whose words are followed by where it is.
refusal() { # NAME STATUS LINE WHERE
    file=$made/$1.record code=${3#* code }
    said=$("$made/cuts_of_file.sh" <"$file" 2>&1 >"$made/lines")
    [ $? -eq "$2" ] && echo "$3" | diff - "$made/lines" || return
    answers "$2" "$3$newline" "$said$newline" "$root/cuts" "$file" || return
    case $said in "${3%% code *}: "*"$4 (code ${code%% *})") ;; *) echo "$said" && return 1 ;; esac
}

# A wrong body in words.
told_in_words() { # NAME LINE SENTENCE
    answers 2 "$2$newline" "$3$newline" "$root/cuts" "$made/$1.record"
}

check_refused_files() {
    for code in 20 21 25 26; do check "a file refused with $code" refusal "$code" 2 "file code $code place 0 at 0" ''; done
    check "a file refused with 22" refusal 22 2 "file code 22 place 0 at 10" ', at entry 0, byte 10'
    check "a wrong offset of a body past the end" refusal 22_and_28 2 "file code 22 place 0 at 10" ', at entry 0, byte 10'
    check "a wrong offset of a later body" refusal 22_later 2 "file code 22 place 1 at 22" ', at entry 1, byte 22'
    check "a file refused with 23" refusal 23 2 "file code 23 place 1 at 0" ', at entry 1'
    check "a file refused with 24" refusal 24 2 "file code 24 place 0 at 0" ', at entry 0'
    check "a file refused with 28" refusal 28 2 "file code 28 place 0 at 50" ', at entry 0, byte 50'
    check "a body whose last byte is missing" refusal 28_cut 2 "file code 28 place 0 at 49" ', at entry 0, byte 49'
    check "a later body past the end" refusal 28_later 2 "file code 28 place 1 at 62" ', at entry 1, byte 62'
    check "a wrong offset in words" told_in_words 22 "file code 22 place 0 at 10" \
        "file: the offset is not where the body is due, right after the body or the contents before it, at entry 0, byte 10 (code 22)"
    check "a body past the end in words" told_in_words 28 "file code 28 place 0 at 50" \
        "file: the body passes the end, at entry 0, byte 50 (code 28)"
}

check_channels() {
    check "a file of form 2" refusal 21_form 2 "file code 21 place 0 at 0" ''
    check "a wrong offset in form 1" refusal 22_form_1 2 "file code 22 place 0 at 17" ', at entry 0, byte 17'
    check "a second channel's sample kind" refusal 24_second 2 "file code 24 place 0 at 0" ', at entry 0'
    check "an unused channel that is not 0" refusal 24_unused 2 "file code 24 place 0 at 0" ', at entry 0'
    check "a body past the end in form 1" refusal 28_form_1 2 "file code 28 place 0 at 81" ', at entry 0, byte 81'
    check "no channel" refusal 29 2 "file code 29 place 0 at 0" ', at entry 0'
    check "five channels" refusal 29_five 2 "file code 29 place 0 at 0" ', at entry 0'
    check "a second channel's kernel" refusal 6_second 1 "term 5 code 6 place 0" ''
    check "a second channel's share that is infinite" refusal 9_second 1 "term 5 code 9 place 0" ', at index 0'
    check "a second channel's sample out of range" refusal 10_second 1 "term 5 code 10 place 1" ', at index 1'
    check "a second channel's share that is not whole" refusal 11_second 1 "term 5 code 11 place 2" ', at index 2'
    check "two channels" with_channels two_channels
    check "the lines of two channels" answers 0 "term 5 code 0 place 0${newline}1 300373${newline}2 0 2:12$newline" "" \
        "$root/cuts" "$made/two_channels.record"
    check "a file of form 1" in_form_1
    check "one channel's lines in form 1" answers 0 "$("$root/cuts" "$made/rules.record")$newline" "" "$root/cuts" "$made/form_1.record"
}

check_refusals() {
    check "files to refuse" make_refused_files
    check_refused_files
    for code in 1 2 4 5 6; do check "a term refused with $code" refusal "$code" 1 "term 5 code $code place 0" ''; done
    check "a term refused with 8" refusal 8 1 "term 5 code 8 place 2" ', at index 2'
    check "a term refused with 9" refusal 9 1 "term 5 code 9 place 0" ', at index 0'
    check "a term refused with 10" refusal 10 1 "term 5 code 10 place 1" ', at index 1'
    check "a term refused with 11" refusal 11 1 "term 5 code 11 place 2" ', at index 2'
    check_channels
}

# Two terms, of which the second has a day that is not above the day before it, at index 12.
one_of_two() {
    {
        echo "term 6 kernel linear dmax 1${newline}1 5${newline}term 7 kernel linear dmax 1"
        for day in 1 2 3 4 5 6 7 8 9 10 11 12 13 14; do echo "$day 5"; done
    } | "$made/make_record.sh" >"$made/two.record"
    printf '\014' | dd of="$made/two.record" bs=1 seek=$((2 + 24 + 12 + 12 * 12)) conv=notrunc 2>/dev/null
    answers 1 "term 6 code 0 place 0${newline}1 0${newline}term 7 code 8 place 12$newline" \
        "term 7: a day is not above the day before it, at index 12 (code 8)$newline" "$root/cuts" "$made/two.record"
}
