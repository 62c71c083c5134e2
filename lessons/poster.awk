# Draws the lines of the program poster as a page of size A3, in tenths of a millimetre. A line is a set: its code, its
# lateral law, its armed sum and its vertical law. A row of the page has the sets with the same lateral modes, engaged and
# armed, and a column those with the same vertical mode. Beside LAPPR, VAPPR can be armed or not, which makes two rows.

function text(x, y, class, words) {
    printf "<text x=\"%d\" y=\"%d\" class=\"%s\">%s</text>\n", x, y, class, words
}

function box(x, y, width, height, class) {
    printf "<rect x=\"%d\" y=\"%d\" width=\"%d\" height=\"%d\" rx=\"8\" class=\"%s\"/>\n", x, y, width, height, class
}

# A row of the page: its lateral mode, the number of its armed lateral mode, whether VAPPR is armed where both can be, and
# what it is called, in two lines.
function row(lateral, armed, vappr, first, second, key) {
    if (lateral != last_lateral) {
        top += 22
        band_top[lateral] = top
        last_lateral = lateral
    }
    key = lateral "," armed "," vappr
    order[++rows] = key
    row_top[key] = top
    row_first[key] = first
    row_second[key] = second
    top += row_height
    band_end[lateral] = top - row_gap
}

# The three rows of a mode beside which NAV and LAPPR can be armed.
function three_rows(lateral) {
    row(lateral, 0, 0, "no lateral", "mode armed")
    row(lateral, 1, 0, "NAV armed", "")
    row(lateral, 2, 0, "LAPPR armed,", "and so VAPPR")
}

function lay_out() {
    left = 575
    column_width = 442
    column_gap = 10
    row_height = 150
    row_gap = 10
    top = 318
    three_rows(1)
    three_rows(2)
    row(3, 0, 0, "no lateral", "mode armed")
    row(3, 2, 0, "LAPPR armed,", "and so VAPPR")
    row(4, 0, 0, "NAV and VAPPR", "not armed")
    row(4, 0, 1, "VAPPR armed", "")
    row(4, 1, 0, "NAV armed", "")
    row(4, 1, 1, "NAV and", "VAPPR armed")
    three_rows(5)
}

function column(vertical) {
    return left + (vertical - 1) * column_width
}

function head() {
    print "<svg xmlns=\"http://www.w3.org/2000/svg\" viewBox=\"0 0 4200 2970\" width=\"420mm\" height=\"297mm\" role=\"img\" aria-labelledby=\"poster-title\" font-family=\"DejaVu Sans, Helvetica, Arial, sans-serif\" fill=\"#1b1b1b\">"
    print "<title id=\"poster-title\">All mode sets of the bench by their codes</title>"
    print "<style>"
    print ".title { font-size: 92px; font-weight: bold }"
    print ".lead { font-size: 36px }"
    print ".head { font-size: 40px; font-weight: bold; text-anchor: middle }"
    print ".band { font-size: 58px; font-weight: bold; text-anchor: middle; fill: #ffffff }"
    print ".under { font-size: 30px; text-anchor: middle; fill: #ffffff }"
    print ".row { font-size: 28px; text-anchor: end }"
    print ".code { font-size: 52px; font-weight: bold; text-anchor: middle; fill: #1f4e8c }"
    print ".mode { font-size: 33px; font-weight: bold }"
    print ".numbers { font-size: 28px; text-anchor: end; fill: #555555 }"
    print ".chip { font-size: 28px; text-anchor: middle }"
    print ".none { font-size: 28px; fill: #555555 }"
    print ".note { font-size: 33px }"
    print ".b { font-weight: bold }"
    print ".heads { fill: #ececec }"
    print ".bands { fill: #1f4e8c }"
    print ".set { fill: #ffffff; stroke: #1f4e8c; stroke-width: 3 }"
    print ".engaged { fill: #dce9f7 }"
    print ".armed { fill: #fff4cf; stroke: #7a5600; stroke-width: 2.5; stroke-dasharray: 9 5 }"
    print ".no { fill: #f1f1f1 }"
    print "</style>"
    print "<rect width=\"4200\" height=\"2970\" fill=\"#ffffff\"/>"
}

# The mode names of both axes, by their laws.
function names() {
    split("ROLL HDG NAV LAPPR LGA", lateral_name)
    split("PITCH,VS,FLC,ALT,ALTSEL capture,ALTSEL track,VAPPR,VGA", vertical_name, ",")
}

function column_heads(vertical) {
    for (vertical = 1; vertical <= 8; vertical++) {
        box(column(vertical), 268, column_width - column_gap, 64, "heads")
        text(column(vertical) + (column_width - column_gap) / 2, 314, "head", vertical_name[vertical])
    }
}

# The places of a row, all empty at first, and its name.
function empty_row(key, vertical) {
    for (vertical = 1; vertical <= 8; vertical++)
        box(column(vertical), row_top[key], column_width - column_gap, row_height - row_gap, "no")
    text(left - 16, row_top[key] + 66, "row", row_first[key])
    text(left - 16, row_top[key] + 102, "row", row_second[key])
}

# An armed mode; the place behind it.
function chip(x, y, name, width) {
    box(x, y, width, 40, "armed")
    text(x + width / 2, y + 30, "chip", name)
    return x + width + 9
}

# The armed modes, by their parts of the armed sum.
function chips(x, y, sum) {
    if (sum == 0) text(x, y + 30, "none", "nothing armed")
    if (sum % 2 == 1) x = chip(x, y, "NAV", 90)
    if (int(sum / 2) % 2 == 1) x = chip(x, y, "LAPPR", 121)
    if (int(sum / 4) % 2 == 1) x = chip(x, y, "ALTSEL", 136)
    if (int(sum / 8) % 2 == 1) x = chip(x, y, "VAPPR", 125)
}

function cell(x, y, code, lateral, sum, vertical, first, second) {
    box(x, y, column_width - column_gap, row_height - row_gap, "set")
    box(x + 3, y + 3, column_width - column_gap - 6, 86, "engaged")
    text(x + 62, y + 65, "code", code)
    text(x + 130, y + 40, "mode", first)
    text(x + 130, y + 78, "mode", second)
    text(x + column_width - column_gap - 14, y + 36, "numbers", lateral " " sum " " vertical)
    chips(x + 12, y + 95, sum)
}

function bands(lateral, middle) {
    for (lateral = 1; lateral <= 5; lateral++) {
        box(100, band_top[lateral], 230, band_end[lateral] - band_top[lateral], "bands")
        middle = (band_top[lateral] + band_end[lateral]) / 2
        text(215, middle, "band", lateral_name[lateral])
        text(215, middle + 46, "under", count[lateral] " sets")
        text(215, middle + 84, "under", lowest[lateral] " to " highest[lateral])
    }
}

function notes() {
    text(100, 2770, "note b", "How to read a cell")
    text(100, 2816, "note", "Left, the code of the set. Beside it, the engaged lateral and the engaged vertical mode. Below, in dashed boxes, the armed modes.")
    text(100, 2862, "note", "Right, the numbers of a display: lateral law, armed sum (NAV 1, LAPPR 2, ALTSEL 4, VAPPR 8) and vertical law.")
    text(2400, 2770, "note b", "Why a place is empty")
    text(2400, 2816, "note", "VAPPR engages only beside an engaged LAPPR, and no mode is armed while it is engaged.")
    text(2400, 2862, "note", "So no row arms NAV beside NAV or LAPPR beside LAPPR. Where LAPPR is armed, VAPPR is always armed.")
    text(100, 2908, "note", "The page shows all sets that the rules allow. It does not say that a list of calls from power-on reaches each of them.")
}

BEGIN {
    names()
    lay_out()
    head()
    text(100, 168, "title", "All mode sets of the bench")
    text(100, 226, "lead", "One row for each engaged lateral mode with what is armed beside it, one column for each engaged vertical mode.")
    column_heads()
    for (i = 1; i <= rows; i++) empty_row(order[i])
}

{
    key = $2 "," $3 % 4 "," ($2 == 4 && $3 >= 8)
    if ($1 != NR - 1 || NF != 4 || ($1 > 0 && !(key in row_top))) wrong = 1
    else if ($1 == 0) cell(column(8), 90, 0, $2, $3, $4, "Off", "no mode")
    else cell(column($4), row_top[key], $1, $2, $3, $4, lateral_name[$2], vertical_name[$4])
    if (!count[$2]++) lowest[$2] = $1
    highest[$2] = $1
}

END {
    if (wrong || NR != 108) {
        print "poster.awk: these are not the 108 lines of the program poster" > "/dev/stderr"
        exit 1
    }
    bands()
    notes()
    print "</svg>"
}
