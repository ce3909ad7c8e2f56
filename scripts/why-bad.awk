# Reads bytes in decimal, as `od -An -v -t u1` writes them, and tells what is wrong with a sheet. See scripts/why-bad.
# many=1: many sheets, each after its length in decimal and LF.
BEGIN {
    split("PAGE BYTES REG START RUN", kinds, " ")
    for (i in kinds) rank[kinds[i]] = i - 1
    values["PAGE"] = 2; values["BYTES"] = 2; values["REG"] = 2; values["START"] = 3; values["RUN"] = 1
    parts["PAGE"] = "number and word"; parts["BYTES"] = "real address and bytes"; parts["REG"] = "number and word"
    parts["START"] = "counter, code and mask"; parts["RUN"] = "budget"
    for (i = 32; i < 127; i++) glyph[i] = sprintf("%c", i)
    glyph[92] = "\\\\"
    begin_sheet()
    left = many ? -1 : 65537
}

{
    for (i = 1; i <= NF; i++) {
        if (left > 0) { take($i + 0); left--; if (many && left == 0) next_sheet() }
        else if (many) take_length($i + 0)
    }
}

END {
    if (!many) { end_sheet(); print_reason() }
    else if (left != -1 || digits != "") { print "cut off"; exit 1 }
}

# The length that stands before each sheet; left is -1 while it is read.
function take_length(byte) {
    if (byte != 10) { digits = digits glyph[byte]; return }
    left = digits + 0
    digits = ""
    if (left == 0) next_sheet()
}

function next_sheet() { end_sheet(); print_reason(); begin_sheet(); left = -1 }

function print_reason() {
    if (reason == "") print "good"
    else print bad_line "\t" reason
}

function begin_sheet() {
    size = 0; number = 0; stage = 0; reason = ""; last_kind = ""
    split("", given)
    begin_line()
}

function end_sheet() {
    if (size > 65536) { bad_line = 0; reason = "the sheet has more than 65,536 bytes"; return }
    if (reason != "") return
    number++
    if (fields > 1 || size_of[1] > 0) blame("the sheet ends in this line without LF (line feed): every line ends in one")
    else if (stage < 3) blame((size == 0 ? "the sheet is empty" : "the sheet ends here") ", and the START line is missing")
    else if (stage == 3) blame("the sheet ends here, and the RUN line is missing")
}

function begin_line() { fields = 0; last = 0; begin_field() }

function begin_field() {
    fields++
    size_of[fields] = 0; text[fields] = ""; plain[fields] = ""; not_digit[fields] = ""; not_hex[fields] = ""
}

# A byte of the sheet. Of a field its length is kept, its first 80 bytes, and the first byte that is no digit, in decimal or in hex.
function take(byte,    shown) {
    size++
    if (reason != "") return
    if (byte == 10) { number++; judge(); begin_line(); return }
    last = byte
    if (byte == 9) { begin_field(); return }
    shown = byte in glyph ? glyph[byte] : sprintf("\\x%02X", byte)
    if (size_of[fields]++ < 80) {
        plain[fields] = plain[fields] (byte in glyph ? glyph[byte] : "?")
        if (size_of[fields] <= 40) text[fields] = text[fields] shown
    }
    if (byte >= 48 && byte <= 57) return
    if (not_digit[fields] == "") not_digit[fields] = shown
    if (byte >= 65 && byte <= 70) return
    if (not_hex[fields] == "") not_hex[fields] = shown
}

function blame(why) { bad_line = number; reason = why }
function shown_of(f) { return "'" text[f] (size_of[f] > 40 ? "..." : "") "'" }
function blame_field(f, what, why) { blame("field " f ", " what ", is " shown_of(f) ": " why) }

# One line, by itself and by the lines above it.
function judge(    kind) {
    kind = size_of[1] <= 5 ? plain[1] : ""
    if (last == 13) { blame("it ends in a carriage return (\\x0D): lines end in LF alone"); return }
    if (fields == 1 && size_of[1] == 0) { blame("it is empty"); return }
    if (!(kind in rank)) { judge_name(); return }
    if (!in_order(kind)) return
    if (fields != values[kind] + 1) { judge_count(kind); return }
    if (kind == "PAGE") judge_given(kind, 511, 4)
    else if (kind == "REG") judge_given(kind, 15, 8)
    else if (kind == "BYTES") judge_bytes()
    else if (kind == "START") { if (hex_of(2, "the counter", 6) && decimal_of(3, "the code", 3)) decimal_of(4, "the mask", 15) }
    else decimal_of(2, "the budget", 65535)
    stage = rank[kind]
    last_kind = kind
}

function judge_name(    name, why) {
    name = plain[1]
    sub(/[ ,;].*/, "", name)
    if (name in rank && name != plain[1]) why = "fields are parted by one tab, and by nothing else"
    else if (toupper(plain[1]) in rank && size_of[1] <= 5) why = "names of lines are in capitals"
    else why = "a line begins with PAGE, BYTES, REG, START or RUN"
    blame_field(1, "the name", why)
}

function in_order(kind) {
    if (stage == 4) blame("nothing may stand after the RUN line")
    else if (kind == "RUN" && stage < 3) blame("RUN stands here before any START line")
    else if (kind == "START" && stage == 3) blame("START is given a second time")
    else if (rank[kind] < stage) blame("a " kind " line stands after a " last_kind " line: the order is PAGE, BYTES, REG, START, RUN")
    return reason == ""
}

function judge_count(kind,    has) {
    has = fields - 1
    blame(kind " has " values[kind] (values[kind] == 1 ? " value (" : " values (") parts[kind] \
        "), each after one tab, and this line has " has \
        (size_of[fields] == 0 && has > 0 ? ", the last one empty" : ""))
}

# Whether a field is a decimal in its range. Longer than seven digits is out of every range.
function decimal_of(f, what, most) {
    if (size_of[f] == 0) blame_field(f, what, "a decimal from 0 to " most " is missing")
    else if (not_digit[f] != "") blame_field(f, what, "'" not_digit[f] "' is no digit of a decimal")
    else if (size_of[f] > 1 && substr(plain[f], 1, 1) == "0") blame_field(f, what, "a decimal has no leading zero")
    else if (size_of[f] > 7 || plain[f] + 0 > most) blame_field(f, what, "it goes from 0 to " most)
    return reason == ""
}

# Whether a field is so many digits in hex.
function hex_of(f, what, digits) {
    if (not_hex[f] ~ /^[a-f]$/) blame_field(f, what, "hex digits are in capitals")
    else if (not_hex[f] != "") blame_field(f, what, "'" not_hex[f] "' is no hex digit")
    else if (size_of[f] != digits) blame_field(f, what, "it has exactly " digits " hex digits, and here are " size_of[f])
    return reason == ""
}

function judge_given(kind, most, digits,    what) {
    what = kind == "PAGE" ? "page" : "register"
    if (!decimal_of(2, "the " what "'s number", most) || !hex_of(3, "the " what "'s word", digits)) return
    if ((kind, plain[2]) in given) blame(what " " plain[2] " was given before, in line " given[kind, plain[2]])
    given[kind, plain[2]] = number
}

function judge_bytes(    n) {
    n = size_of[3]
    if (!decimal_of(2, "the real address", 65535)) return
    if (n == 0) blame_field(3, "the bytes", "there is no byte")
    else if (n > 64) blame_field(3, "the bytes", "a line has at most 32 bytes, 64 hex digits, and here are " n " characters")
    else if (hex_of(3, "the bytes", n)) {
        if (n % 2) blame_field(3, "the bytes", "each byte has two hex digits, and here are " n)
        else if (plain[2] + n / 2 > 65536)
            blame("the bytes reach past the end of memory: the last address is 65535, and byte " n / 2 " would lie at " plain[2] + n / 2 - 1)
    }
}
