# words.sh: the header's words and version, and dates of the calendar.

# The sentences of all codes of the rules, by the function of the header and by the script's reading of it:
# of a term, and of a file with a position.
same_words() {
    for code in 1 2 3 4 5 6 7 8 9 10 11 12 13 14 20 21 22 23 24 25 26 27 28 29; do
        echo "term 1 code $code place 3"
        echo "file code $code place 3 at 70"
    done | awk -f "$root/tools/sentences.awk" "$root/include/tawinrak.h" - >"$made/by_script"
    "$made/texts.sh" | tail -n +2 | diff - "$made/by_script"
}

own_words() { [ -z "$("$made/texts.sh" | sed 's/,* (code [0-9]*)$//' | sort | uniq -d)" ]; }

same_version() {
    version=$("$made/texts.sh" | head -n 1)
    answers 0 "$version$newline" "" "$root/cuts" --version && answers 0 "$version$newline" "" "$root/pack" --version &&
        grep -q "TAWINRAK_VERSION. is ${version#Tawinrak }\." "$root/README.md"
}

# Days as the system's calendar has them, at the ends of months, of leap years and of what a day may be.
same_dates() {
    days="0 30 31 58 59 364 365 789 790 11016 20454 47540 47541 2932896 2932897 4294967295"
    for day in $days; do echo "2 0 1:$(date -u -d "@$((86400 * day))" +%Y-%m-%d)"; done >"$made/by_system"
    for day in $days; do echo "2 0 1:$day"; done | awk -f "$root/tools/dates.awk" | diff "$made/by_system" -
}

check_words() {
    check "every code has words, the same in the header and in ./cuts" same_words
    check "no two codes have the same words" own_words
    check "one version" same_version
    check "days as calendar dates" same_dates
}
