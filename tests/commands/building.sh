# building.sh: the building of what is missing, in a copy of the tree with a quick stand-in for rt.

# The stand-in for rt makes parts by copying them, keeps a note of its calls in 'called', and fails
# where there is a file 'broken' or where another call is under way. Like rt it runs a program that it makes,
# and then says its own words on standard error.
make_tree() {
    tree=$(mktemp -d) && chmod 755 "$tree" && mkdir "$tree/kit" || return
    tar -C "$root" -cf - --exclude 'crates/*/out' cuts pack tools include examples crates crates.txt |
        tar -C "$tree" --no-same-owner -xf - || return
    cat >"$tree/kit/rt" <<END
#!/bin/sh
if [ "\$1" = run ]; then exec 3>&2; else exec 3>&1; fi
echo "notes of rt \$* in \${PWD##*/}" | tee -a "$tree/called" >&3
mkdir "$tree/busy" && [ ! -e "$tree/broken" ] || exit 1
mkdir -p out
case "\$* \${PWD##*/}" in
'run cuts') cp "$CUTS" out/cuts && echo "what the program prints" ;;
'lib tawinrak') cp "$ARCHIVE" out/libtawinrak.a ;;
esac
rmdir "$tree/busy"
END
    chmod +x "$tree/kit/rt"
    : >"$tree/called"
}

# Runs a command of the copy.
copied() ( # COMMAND ARGUMENT...
    RATTLE_HOME=$(kit_home) PATH=$tree/kit:$PATH && export RATTLE_HOME PATH
    command=$1 && shift
    exec "$tree/$command" "$@"
)

# Runs words as nobody, where that can be had.
as_nobody() {
    if [ "$(id -u)" -eq 0 ] && command -v setpriv >/dev/null; then
        setpriv --reuid=65534 --regid=65534 --clear-groups "$@"
    else
        "$@"
    fi
}

change_a_crate() { echo >>"$tree/crates/reply/src/lib.rt"; }

# How often rt is called by words.
calls_of() {
    : >"$tree/called"
    "$@" >/dev/null 2>&1
    wc -l <"$tree/called"
}

# A line for each crate that cuts leans on, itself last, with its number; the log has what rt says.
first_build() {
    count=1 at=0
    for name in $(sed -n 's/^cuts: *//p' "$root/crates.txt"); do
        if [ -d "$root/crates/$name" ]; then count=$((count + 1)); fi
    done
    while [ "$at" -lt "$count" ]; do at=$((at + 1)) && echo "proving $at of $count: "; done >"$made/proving"
    prints "$year" copied cuts 2>"$made/words" || return
    sed 's/[a-z]*$//' "$made/words" | diff "$made/proving" - && tail -n 1 "$made/words" | grep -q ': cuts$' &&
        diff "$tree/called" "$tree/target/log/making-cuts"
}

# Whether a thing done to the tree has cuts built anew, once.
built_again() { # WORDS...
    "$@" && [ "$(calls_of copied cuts)" -gt 0 ] && answers 0 "$year" "" copied cuts
}

damage_the_program() { echo damage >"$tree/target/bin/cuts"; }

# What rt says is shown where it fails, and is in the log.
broken_build() { # COMMAND LOG
    change_a_crate && : >"$tree/broken"
    ends_with 3 copied "$1" "$tree/examples/year.txt" >"$made/output" 2>"$made/words" || return
    rm -r "$tree/broken" "$tree/busy"
    [ ! -s "$made/output" ] && grep -q '^notes of rt lib' "$made/words" && grep -q '^notes of rt lib' "$tree/target/log/$2" &&
        [ "$(tail -n 1 "$made/words")" = "$1: the program cannot be built" ] && copied cuts
}

# Several at once, of which each would build.
at_once() {
    change_a_crate
    for one in 1 2 3; do (copied cuts >"$made/cuts_$one" 2>&1) & done
    for one in 1 2 3; do (copied pack "$root/examples/year.txt" >"$made/pack_$one" 2>"$made/said_$one") & done
    wait
    for one in 1 2 3; do
        [ "$(grep -v '^proving\|^waiting' "$made/cuts_$one")$newline" = "$year" ] || { cat "$made/cuts_$one" && return 1; }
        cmp "$made/pack_$one" "$root/examples/year.record" || { cat "$made/said_$one" && return 1; }
    done
}

# Whether a thing done to the tree has pack compiled anew.
compiled_again() { # WORDS...
    stamp=$(cat "$tree/target/made/make_record")
    "$@" && copied pack "$root/examples/year.txt" >/dev/null && [ "$(cat "$tree/target/made/make_record")" != "$stamp" ]
}

change_the_header() { echo '/* */' >>"$tree/include/tawinrak.h"; }

put_a_text() { cp "$root/examples/year.txt" "$tree/examples/mine.txt"; }

# With none but these commands, and as nobody.
needs_little() {
    mkdir "$tree/few"
    for name in sh dirname readlink basename uname cat head sed awk find sort xargs sha256sum; do
        ln -s "$(command -v "$name")" "$tree/few/$name"
    done
    answers 0 "$year" "" as_nobody env "PATH=$tree/few" "RATTLE_HOME=$(kit_home)" "$tree/cuts"
}

# A tree that is to be built and cannot be written.
not_to_be_written() {
    change_a_crate && chmod -R a-w "$tree/target"
    ends_with 3 as_nobody env "PATH=$tree/kit:$PATH" "RATTLE_HOME=$(kit_home)" "$tree/cuts"
    ended=$?
    chmod -R u+w "$tree/target"
    return "$ended"
}

without_tools() {
    for lost in tools/machine.sh tools; do
        mv "$tree/$lost" "$tree/elsewhere"
        ends_with 3 copied cuts && ends_with 3 copied pack "$root/examples/year.txt" >/dev/null || return
        mv "$tree/elsewhere" "$tree/$lost"
    done
}

check_building() {
    check "a tree without its program" make_tree
    check "the first build says a line for each crate" first_build
    check "what is built runs without a word" answers 0 "$year" "" copied cuts
    check "what is built is not built again" [ "$(calls_of copied cuts)" -eq 0 ]
    find "$tree/crates" -exec touch {} +
    check "a touched file builds nothing" [ "$(calls_of copied cuts)" -eq 0 ]
    check "a changed file builds again" built_again change_a_crate
    check "a damaged program is built again" built_again damage_the_program
    change_a_crate
    check "a build with standard error closed" answers 0 "$year" "" shell 'copied cuts 2>&-'
    check "a failed build shows its log" broken_build cuts making-cuts
    check "a failed build of pack shows its log" broken_build pack making-tawinrak
    check "several builds at once" at_once
    check "a changed header compiles pack again" compiled_again change_the_header
    check "a text beside the examples compiles nothing" shell '! compiled_again put_a_text'
    check "a built program needs no compiler, no rt and no root" needs_little
    check "a tree that cannot be written" not_to_be_written
    check "a tree without its tools" without_tools
    rm -rf "$tree"
}
