# Says in words what is wrong in a text at the place that a refusal gives, for the clerk who is to put it right. Reads
# the text's bytes as od -An -v -tu1 prints them. Takes text (sheet or engines), number (2 or 3), line and byte.
#
# examples/office.c has this table and these words a second time; scripts/test-words holds the two to each other.

BEGIN {
    # a line's tag, then for each of its numbers a name and the limits
    station = ";reading B;0 to 4000 mm"
    for (i = 1; i <= 6; i++)
        station = station ";reading " substr("qrstuv", i, 1) ";0 to 2500 mm"
    row[1] = "HULL;hull number;0 to 15"
    row[2] = "FORM;length;2000 to 6000 mm;reference length;2000 to 6000 mm and not above the length" \
        ";transom width;500 to 3000 mm;transom height;200 to 900 mm" \
        ";mark of a flat hard-chine bottom;0 for no or 1 for yes;mark of remote steering;0 for no or 1 for yes"
    row[3] = "STN Q" station
    row[4] = "STN R" station
    row[5] = "STN S" station
    row[6] = "STN T" station
    row[7] = "VOL;volume of the aft structure;0 to 5000000 cubic cm;volume of the motor well;0 to 5000000 cubic cm" \
        ";volume of the flooding chambers;0 to 5000000 cubic cm"
    row[8] = "MASS;weight of the bare boat;1 to 2000000 g;weight of the permanent tanks with fuel;0 to 500000 g" \
        ";weight of the installed machinery;0 to 500000 g"
    row[9] = "PWR;mark of the drive;1 for outboard or 0 for inboard;declared power;0 to 200000 W"
    row[10] = "SEAT;number of designated positions;1 to 24;number of tested persons;1 to 24, or - for none"
    row["FIT"] = "FIT;line number;1 to 24 and above that of the FIT line before;weight of one piece;1 to 500000 g" \
        ";number of pieces;1 to 99, which together weigh at most 500000 g"
    row["END"] = "END"
    row["ENG"] = "ENG;power;1 to 200000 W and above that of the ENG line before;weight;0 to 1000000 g"
}

{
    for (i = 1; i <= NF; i++)
        code[++size] = $i + 0
}

END {
    whose = text == "sheet" ? "the sheet" : "the engine lines"
    if (line == 0) {
        print whose ": too long, at most 4096 bytes are read"
        exit
    }
    start = 1
    for (left = line; left > 1 && start <= size; start++)
        left -= code[start] == 10
    place = start + byte - 1
    words = number == 3 ? too_heavy() : ""
    if (words == "")
        words = (byte == 1 ? line_expected() : expected()) ", and " found()
    print whose ", line " line ", byte " byte ": " words
}

# The bytes of the line before the place. They are right, so they are letters, digits, - and tabs.
function bytes_before(    at, bytes) {
    for (at = start; at < place; at++)
        bytes = bytes sprintf("%c", code[at])
    return bytes
}

# The digits from the place on.
function digits_there(    at, digits) {
    for (at = place; code[at] >= 48 && code[at] <= 57; at++)
        digits = digits sprintf("%c", code[at])
    return digits
}

# Of a count of pieces that is refused although it is within 1 to 99: they weigh too much together. Of others nothing.
function too_heavy(    fields, field, count) {
    fields = split(bytes_before(), field, "\t")
    count = digits_there() + 0
    if (field[1] != "FIT" || fields < 4 || count < 1 || count > 99)
        return ""
    return count " pieces of " field[3] " g weigh " count * field[3] " g, and a line may weigh at most 500000 g"
}

# What may stand where a line begins.
function line_expected() {
    if (text == "engines" && line > 40)
        return "the end of the text is expected here (there are at most 40 ENG lines)"
    if (text == "engines")
        return (line == 1 ? "an ENG line" : "an ENG line or the end of the text") " is expected here"
    if (line <= 10)
        return "the " substr(row[line + 0], 1, index(row[line + 0], ";") - 1) " line is expected here"
    # the E of END in the line before
    if (code[start - 4] == 69)
        return "the end of the text is expected here (nothing follows END)"
    if (line > 34)
        return "END is expected here (a sheet has at most 24 FIT lines)"
    return "a FIT line or END is expected here"
}

# What may stand further on in a line: the rest of its tag, a number, or what ends a number.
function expected(    before, cells, cell, tag, tabs, at, next_one, ended, what) {
    before = bytes_before()
    cells = split(line_row(), cell, ";")
    tag = cell[1]
    tabs = gsub(/ /, "\t", tag)
    if (cells > 1)
        tag = tag "\t"
    if (substr(tag, byte, 1) == "\t")
        return "a tab is expected here"
    if (byte <= length(tag))
        return article(cell[1]) " " cell[1] " line is expected, so " substr(tag, byte, 1) " here"
    if (cells == 1)
        return "the line's end is expected here"
    at = 2 * (gsub(/\t/, "\t", before) - tabs)
    sub(/.*\t/, "", before)
    if (number == 3)
        return "the " cell[at] " must be " cell[at + 1]
    if (before == "")
        return "the " cell[at] " (" cell[at + 1] ") is expected here"
    next_one = "a tab and then the " cell[at + 2]
    ended = before == "0" || before == "-" || length(before) == 10
    # a FIT line may end after its weight: there is then one piece
    if (at + 1 == cells)
        what = (ended ? "" : "a digit or ") "the line's end"
    else if (cell[1] == "FIT" && at == 4)
        what = (ended ? "" : "a digit, or ") next_one ", or the line's end,"
    else
        what = ended ? next_one : "a digit, or " next_one ","
    return what " is expected here" (ended ? ending(before) : "")
}

# Of FIT and ENG lines there may be many.
function article(tag) {
    return tag == "FIT" ? "a" : tag == "ENG" ? "an" : "the"
}

# The row of the line; a FIT line and END are told apart by their first byte.
function line_row() {
    if (text == "engines")
        return row["ENG"]
    if (line <= 10)
        return row[line + 0]
    return code[start] == 70 ? row["FIT"] : row["END"]
}

# Why a number ends here although a digit follows, or after a dash another.
function ending(digits,    digit) {
    digit = code[place] >= 48 && code[place] <= 57
    if (digits == "-")
        return digit || code[place] == 45 ? " (- stands alone)" : ""
    if (!digit)
        return ""
    return digits == "0" ? " (a number has no leading 0)" : " (a number has at most 10 digits)"
}

# What does stand there, with a hint where a screen does not show it.
function found(    c) {
    if (place > size)
        return "the text ends"
    if (number == 3)
        return "there is " digits_there()
    c = code[place]
    if (place == 1 && c == 239 && code[2] == 187 && code[3] == 191)
        return "there is a byte order mark: save the text without it"
    if (place == 1 && (c == 254 && code[2] == 255 || c == 255 && code[2] == 254))
        return "there is a byte order mark of UTF-16: save the text as UTF-8, without a mark"
    if (c == 9)
        return "there is a tab"
    if (c == 10)
        return "there is the line's end"
    if (c == 13)
        return "there is a carriage return: save the text with line feeds alone, as Unix has them"
    if (c == 32)
        return "there is a space: fields are parted by one tab, and spaces stand nowhere"
    return "there is " (c > 32 && c < 127 ? sprintf("%c", c) : "the byte " c)
}
