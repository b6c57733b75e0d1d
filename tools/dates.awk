# dates.awk: the lines that cuts prints with each change date as a date of the calendar, for days
# counted from 1970-01-01.

function leap(year) { return year % 4 == 0 && (year % 100 != 0 || year % 400 == 0) }

# The days from 0000-01-01 to the first of the year.
function days_before(year) { return 365 * year + int((year + 3) / 4) - int((year + 99) / 100) + int((year + 399) / 400) }

function date_of(day,    year, month, length_of) {
    day += days_before(1970)
    year = int(day / 365.2425)
    while (days_before(year + 1) <= day) year++
    while (days_before(year) > day) year--
    day -= days_before(year)
    for (month = 1; day >= (length_of = days_in[month] + (month == 2 && leap(year))); month++) day -= length_of
    return sprintf("%04d-%02d-%02d", year, month, day + 1)
}

BEGIN { split("31 28 31 30 31 30 31 31 30 31 30 31", days_in, " ") }

/^[0-9]/ {
    for (i = 3; i <= NF; i++) {
        split($i, cut, ":")
        $i = cut[1] ":" date_of(cut[2])
    }
}

{ print }
