# parts.sh, to be sourced where root is set and after machine.sh: the archive and the programs of
# this tree, each made unless it stands as it was made and all that it is made of is as it was.
# Nothing in the environment can name others.
#
#   need_archive          sets ARCHIVE to libtawinrak.a
#   need_cuts             sets CUTS to the program cuts
#   need_example NAME     sets EXAMPLE to the program of examples/NAME.c

# One sum over the names and bytes of the files and of all files in the folders, named from root. What rt
# keeps and makes in crates/NAME/out is left out.
sum_of() { # PATH...
    (cd "$root" && find -L "$@" -path 'crates/*/out' ! -path 'crates/*/*/out' -prune -o -type f -print0 |
        LC_ALL=C sort -z | xargs -0 sha256sum | sha256sum) 2>/dev/null
}

stamp_of() { echo "$root/target/made/$(basename "$1")"; }

# Whether a part stands as it was made of its sources: its stamp is the sum of them and its own.
stands() { # PART SOURCES
    [ -f "$(stamp_of "$1")" ] && [ "$(cat "$(stamp_of "$1")")" = "$(sum_of $2)$(sum_of "$1")" ]
}

# Makes a part and its stamp. The sum of the sources is taken before, so that what changes meanwhile tells.
make_part() { # PART SOURCES COMMAND...
    part=$1 stamp=$(stamp_of "$1") made_of=$(sum_of $2)
    shift 2
    "$@" && echo "$made_of$(sum_of "$part")" >"$stamp.new" && mv "$stamp.new" "$stamp"
}

# Makes a part unless it stands. Of several that would make parts of this tree one does at a time.
need_part() { # PART SOURCES COMMAND...
    if stands "$1" "$2"; then return 0; fi
    mkdir -p "$root/target/made" || return
    (
        if command -v flock >/dev/null 2>&1; then
            flock -n 9 || { echo "waiting for another build of this tree" >&2 && flock 9; }
        fi
        stands "$1" "$2" || make_part "$@"
    ) 9>"$root/target/made/lock"
}

# Has rt prove and build a crate, and keeps what rt says in the log. A program rt also runs, here on no input:
# what that prints is dropped, and what rt says is on standard error.
build_crate() ( # CRATE LOG
    cd "$root/crates/$1" || exit
    if [ -f src/main.rt ]; then
        exec rt run </dev/null 2>>"$2" >/dev/null
    else
        exec rt lib </dev/null >>"$2" 2>&1
    fi
)

# Proves and builds all that a crate is made of, a line each on standard error, itself last, and copies what
# rt made of it to where the part stands. Shows what rt says if it fails.
prove() { # CRATE PART
    log=$root/target/log/making-$1 at=0
    command -v rt >/dev/null 2>&1 || { echo "rt, of the Rattle kit, is missing" >&2 && return 1; }
    mkdir -p "$root/target/log" "$root/$(dirname "$2")" && true >"$log" || return
    names=$(awk -v crate="$1" -f "$root/tools/order.awk" "$root/crates.txt")
    count=$(echo "$names" | wc -l)
    for name in $names; do
        at=$((at + 1)) before=$(wc -c <"$log")
        echo "proving $at of $count: $name" >&2
        build_crate "$name" "$log" || {
            tail -c "+$((before + 1))" "$log" >&2
            echo "rt failed in crates/$name; all that rt said is in $log" >&2
            return 1
        }
    done
    cp "$root/crates/$1/out/$(basename "$2")" "$root/$2.new" && mv "$root/$2.new" "$root/$2"
}

need_archive() {
    ARCHIVE=$root/target/staticlib/libtawinrak.a
    need_part target/staticlib/libtawinrak.a "crates crates.txt" prove tawinrak target/staticlib/libtawinrak.a
}

need_cuts() {
    CUTS=$root/target/bin/cuts
    need_part target/bin/cuts "crates crates.txt" prove cuts target/bin/cuts
}

# Compiles examples/NAME.c, with what stands in examples/NAME if there is such a folder. The program
# takes its place when it is whole.
compile_example() ( # NAME
    need_compiler && mkdir -p "$root/target/examples" && cd "$root" || return
    set -- "$1" "examples/$1.c"
    if [ -d "examples/$1" ]; then set -- "$@" "examples/$1"/*.c; fi
    shift
    "$CC" -std=c11 -O2 -Wall -Wextra -static -Iinclude "$@" "$ARCHIVE" -o "$EXAMPLE.new" && mv "$EXAMPLE.new" "$EXAMPLE"
)

need_example() { # NAME
    EXAMPLE=$root/target/examples/$1
    need_archive || return
    need_part "target/examples/$1" "examples/$1.c examples/$1 include target/staticlib/libtawinrak.a" compile_example "$1"
}
