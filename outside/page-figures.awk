# For page-test: the lines of irdetail as a page has to show them, in its order. A row is its section, its head and its figures.
# Digits are copied, never computed with: a figure of twelve digits has to come through whole. Where inbox is set, the one line is how
# the row of the inbox begins.

# With a comma before every three digits of the part before the point.
function grouped(number,    sign, whole, part, text) {
    sign = sub(/^-/, "", number) ? "-" : ""
    whole = number
    part = ""
    if (match(number, /\./)) { whole = substr(number, 1, RSTART - 1); part = substr(number, RSTART) }
    text = ""
    while (length(whole) > 3) { text = "," substr(whole, length(whole) - 2) text; whole = substr(whole, 1, length(whole) - 3) }
    return sign whole text part
}

# Millionths as per cent: a point before the last four digits.
function per_cent(number,    sign) {
    sign = sub(/^-/, "", number) ? "-" : ""
    while (length(number) < 5) number = "0" number
    return sign substr(number, 1, length(number) - 4) "." substr(number, length(number) - 3)
}

# The fields of the line from one on.
function from(first,    index_, text) {
    text = ""
    for (index_ = first; index_ <= NF; index_++) text = text "|" grouped($index_)
    return text
}

function of_input() {
    print "input|File|" name
    print "input|Size|" (size > 65536 ? "more than 65,536" : grouped(size)) " bytes"
    if (size <= 65536) print "input|SHA-256|" digest
}

function ladder(figures, number,    bucket, scenario, row) {
    print "currency-" number " head|0|1|2|3|4|5|6"
    for (bucket = 1; bucket <= 19; bucket++) {
        row = "currency-" number "|" bucket
        for (scenario = 0; scenario <= 6; scenario++) row = row "|" figures[number, scenario, bucket]
        print row
    }
}

function listed(section, kinds, rows,    place) {
    if (rows == 0) return
    print section " head" kinds
    for (place = 1; place <= currencies; place++) if ((section, currency[place]) in said) print section "|" currency[place] said[section, currency[place]]
}

$1 == "R" && inbox { print "inbox|" name "|turned down|refusal " $2 " at place " $3 ", "; exit }
$1 == "R" {
    print "R"
    print "title|" name ": turned down"
    print "where|Refusal|" $2 ", at place " $3 ($2 == 15 ? ", which is a currency and no byte" : "")
    of_input()
    exit
}
$1 == "C" { currency[++currencies] = $2; changes[$2] = from(3) }
$1 == "S" { sums = from(2) }
$1 == "M" { measure = grouped($2); worst = $3; tolerance = grouped($4) }
$1 == "V" { word = tolower($2); verdict = word (word == "close" ? " to the limit" : " the limit") }
$1 == "U" { tolerances[$2] = from(3) }
$1 == "Z" { for (field = 4; field <= NF; field++) rates[$2, $3, field - 3] = per_cent($field) }
$1 == "F" { for (field = 4; field <= NF; field++) flows[$2, $3, field - 3] = grouped($field) }
$1 == "A" && from(3) ~ /[1-9]/ { said["add-ons", $2] = from(3); add_ons++ }
$1 == "K" { said["records", $2] = from(3) }
$1 == "N" { records = grouped($2) }
$1 == "T" { capital = grouped($2) }
$1 == "L" { limit = grouped($2) }
$1 == "H" { headroom = grouped($2) }
$1 == "P" { share = grouped($2) }

END {
    if (verdict == "") exit
    if (inbox) { print "inbox|" name "|" word "|" share "||" measure "|" headroom "|" tolerance "|"; exit }
    print "title|" name ": " verdict
    print "worst|" worst
    print "verdict picture|measure " measure " ± " tolerance "|limit " limit
    print "verdict|Measure|" measure "\nverdict|Tolerance|" tolerance "\nverdict|Limit|" limit
    print "verdict|Headroom|" headroom "\nverdict|Tier 1 capital|" capital "\nverdict|Share|" share
    of_input()
    print "input|Records taken|" records
    print "changes picture" sums "|limit " limit
    for (place = 1; place <= currencies; place++) print "changes picture" changes[currency[place]]
    print "changes head|1|2|3|4|5|6"
    for (place = 1; place <= currencies; place++) {
        print "changes|" currency[place] changes[currency[place]]
        print "changes|" currency[place] " ±" tolerances[currency[place]]
    }
    print "changes|sum" sums
    listed("add-ons", "|1|2|3|4|5|6", add_ons)
    listed("records", "|1|2|3|4|5|6|7|8|9|10", currencies)
    for (place = 1; place <= currencies; place++) { ladder(flows, currency[place]); ladder(rates, currency[place]) }
}
