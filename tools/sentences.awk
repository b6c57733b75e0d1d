# sentences.awk: a sentence for each refusal among the lines that cuts prints, in the words of
# TAWINRAK_REPLIES.
#
#   awk -f tools/sentences.awk include/tawinrak.h LINES

# Where a refusal is: the place, if the code counts one, and the byte position, if it is not 0.
function where(code, place, position) {
    return (counted[code] == "" ? "" : ", at " counted[code] " " place) (position + 0 == 0 ? "" : ", byte " position)
}

function sentence(who, code, place, position) {
    print who ": " text[code] where(code, place, position) " (code " code ")"
}

FNR == NR && $1 == "#define" && $3 ~ /^[0-9]+u$/ { number[$2] = $3 + 0 }

FNR == NR && /^ *REPLY\(/ {
    split($0, part, "\"")
    name = part[1]
    gsub(/^ *REPLY\(|, $/, "", name)
    counted[number[name]] = part[2]
    text[number[name]] = part[4]
}

FNR == NR { next }

$1 == "file" { sentence("file", $3, $5, $7) }

$1 == "term" && $4 != 0 { sentence("term " $2, $4, $6, 0) }
