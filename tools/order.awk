# order.awk: the crates that one is made of, off crates.txt, a line each: behind those that it leans on, the crate itself last.
#
#   awk -v crate=NAME -f tools/order.awk crates.txt

# Tells a crate behind all that it leans on. What is no line of crates.txt is a library of the kit.
function tell(name,    below, count, i) {
    if (!(name in uses) || (name in told)) return
    told[name] = 1
    count = split(uses[name], below)
    for (i = 1; i <= count; i++) tell(below[i])
    print name
}

{ sub(/#.*/, "") }

# A name, maybe the kind of crate, and behind a colon what it leans on.
/^[a-z0-9_]+[^:]*:/ {
    match($0, /^[a-z0-9_]+/)
    uses[substr($0, 1, RLENGTH)] = substr($0, index($0, ":") + 1)
}

END { tell(crate) }
