# Turns cases into shell commands, which lay a case out in $work and try it. Variables: only, a part of the names that are wanted;
# exactly, these names with commas between them, or nothing for all; wanted, "prints" or "logs"; total, how many cases there are.
# Whatever is not a line of a case, and whatever is missing, ends it.

BEGIN {
    for (k = 0; k < 256; k++) escape[sprintf("%02x", k)] = sprintf("\\%03o", k)
}

function give_up(what) {
    print "conformance: " FILENAME ", line " FNR ": " what >"/dev/stderr"
    wrong = 1
    exit 1
}

# Hexadecimal digits as octal escapes.
function escapes(digits,    text, pair, k) {
    text = ""
    if (length(digits) % 2 || digits == "") give_up("not bytes")
    for (k = 1; k < length(digits); k += 2) {
        pair = substr(digits, k, 2)
        if (!(pair in escape)) give_up("not bytes")
        text = text escape[pair]
    }
    return text
}

# A word for the shell.
function quoted(text) {
    gsub(/'/, "'\\''", text)
    return "'" text "'"
}

# Whether the case is one of those to be run.
function chosen() {
    if (only != "" && !index(name, only)) return 0
    return exactly == "" || index("," exactly ",", "," name ",")
}

# The case that has been read, if there is one.
function finish() {
    if (name != "" && chosen()) {
        picked++
        print "name=" quoted(name) " tests=" quoted(tests) " missing=" (missing ? "yes" : "no")
        print "policy() { printf '" policy "'; }"
        print "printf '" input "' >\"$work/input\" || lost"
        if (wanted == "logs") print "printf '" logs "' >\"$work/expected\" || lost"
        else if (lines == "") print ": >\"$work/expected\" || lost"
        else print "printf '%s\\n'" lines " >\"$work/expected\" || lost"
        print "try \"$@\""
    }
    name = ""
}

FNR == 1 { if (open) give_up("the file before has no end"); open = 1; here = 0 }
!open { give_up("a line after the end") }
/^#/ || /^$/ { next }
$1 == "tests" { finish(); tests = substr($0, 7); next }
$1 == "case" { finish(); here++; name = $2; missing = 0; policy = input = lines = logs = ""; next }
$1 == "end" { finish(); if (here != $2) give_up("not " $2 " cases"); all += here; open = 0; next }
name == "" { give_up("in no case") }
$1 == "missing" { missing = 1; next }
$1 == "policy" {
    bytes = escapes($2)
    for (times = NF > 2 ? $3 : 1; times > 0; times--) policy = policy bytes
    next
}
$1 == "input" { input = input escapes($2); next }
$1 == "prints" { lines = lines " " quoted(substr($0, 8)); next }
$1 == "logs" { logs = logs escapes($2); next }
{ give_up("not a line of a case") }

END {
    if (wrong) exit 1
    if (open) give_up("no end")
    if (all != total) give_up("not all files: " all " cases of " total)
    if (exactly != "" && picked != split(exactly, names, ",")) give_up("not each of these is a case: " exactly)
    if (!picked) give_up("no such case")
}
