# Reads a JSON object from standard input, and prints the member at a path of it: a text as it is, another value as its JSON. It prints nothing
# where there is none.
#
# usage: awk -v path=source.uri -f json.awk
#
# request.awk reads a whole request by the same functions. Bytes are taken as they are: run it with LC_ALL=C where texts may have others than
# those of ASCII.
#
# After parse(""), kind[P], value[P] and raw[P] are the kind of the value at P (text, number, truth, null, object, list), its text, and its JSON.
# P is a list of names (of a list's members: numbers from 1 on) with SUBSEP between them. members[P] counts those of an object or a list,
# and name[P, N] is the name of an object's N-th. `fault` says what is wrong with the text, if something is.

function space() {
    while (at <= length(text) && index(" \t\r\n", substr(text, at, 1))) at++
}

function bad(what) {
    if (fault == "") fault = what " at byte " at
    at = length(text) + 1
}

function hex(digits,    i, n, d) {
    n = 0
    for (i = 1; i <= 4; i++) {
        d = index("0123456789abcdef", tolower(substr(digits, i, 1)))
        if (d == 0 || substr(digits, i, 1) == "") { bad("not JSON"); return 63 }
        n = n * 16 + d - 1
    }
    return n
}

# The UTF-8 of a character.
function utf8(n) {
    if (n < 128) return sprintf("%c", n)
    if (n < 2048) return sprintf("%c%c", 192 + int(n / 64), 128 + n % 64)
    if (n < 65536) return sprintf("%c%c%c", 224 + int(n / 4096), 128 + int(n / 64) % 64, 128 + n % 64)
    return sprintf("%c%c%c%c", 240 + int(n / 262144), 128 + int(n / 4096) % 64, 128 + int(n / 64) % 64, 128 + n % 64)
}

function parse_text(    c, n, low, out) {
    if (substr(text, at, 1) != "\"") { bad("not JSON"); return "" }
    out = ""
    for (at++; (c = substr(text, at, 1)) != "\""; at++) {
        if (c == "") { bad("not JSON"); return "" }
        if (c == "\\") {
            c = substr(text, ++at, 1)
            if (c == "n") c = "\n"
            else if (c == "t") c = "\t"
            else if (c == "r") c = "\r"
            else if (c == "b") c = "\b"
            else if (c == "f") c = "\f"
            else if (c == "u") {
                n = hex(substr(text, at + 1, 4))
                at += 4
                if (n >= 55296 && n < 56320 && substr(text, at + 1, 2) == "\\u") {
                    low = hex(substr(text, at + 3, 4))
                    at += 6
                    n = 65536 + (n - 55296) * 1024 + low - 56320
                }
                if (n == 0) { bad("a byte 0"); return "" }
                c = utf8(n)
            }
        }
        out = out c
    }
    at++
    return out
}

# The value that begins at `at`.
function parse(p,    c, from, n, word) {
    space()
    from = at
    c = substr(text, at, 1)
    if (c == "\"") {
        kind[p] = "text"
        value[p] = parse_text()
    } else if (c == "{" || c == "[") {
        kind[p] = c == "{" ? "object" : "list"
        n = 0
        at++
        space()
        if (substr(text, at, 1) == (c == "{" ? "}" : "]")) at++
        else for (;;) {
            n++
            if (kind[p] == "object") {
                space()
                word = parse_text()
                space()
                if (substr(text, at, 1) != ":") bad("not JSON")
                at++
                name[p, n] = word
            } else word = n
            parse(p == "" ? word : p SUBSEP word)
            space()
            c = substr(text, at++, 1)
            if (fault != "" || c == (kind[p] == "object" ? "}" : "]")) break
            if (c != ",") bad("not JSON")
        }
        members[p] = n
    } else {
        while (at <= length(text) && !index(" \t\r\n,]}:", substr(text, at, 1))) at++
        value[p] = substr(text, from, at - from)
        if (value[p] == "null") kind[p] = "null"
        else if (value[p] == "true" || value[p] == "false") kind[p] = "truth"
        else if (value[p] ~ /^-?[0-9]/) kind[p] = "number"
        else bad("not JSON")
    }
    raw[p] = substr(text, from, at - from)
}

{ text = text (NR > 1 ? "\n" : "") $0 }

END {
    at = 1
    parse("")
    if (path != "" && fault == "") {
        gsub(/\./, SUBSEP, path)
        if (kind[path] == "text") print value[path]
        else if (kind[path] != "" && kind[path] != "null") print raw[path]
    }
}
