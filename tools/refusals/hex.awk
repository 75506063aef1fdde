# awk -v line=N -f hex.awk texts.tsv - <TEXT
# Says what is wrong with line N, the first bad one, of a text in Intel HEX. Behind the text, and nowhere else, stands a byte 02h. The
# words of the sentences stand in texts.tsv, as those of sentences.awk do.

BEGIN {
    FS = "\t"
    for (i = 1; i < 256; i++) code[sprintf("%c", i)] = i
}

NR == FNR {
    if ($1 == "21") texts[$2] = $3
    next
}

# The bytes before the bad line: the lines there are good data records, or the end.
FNR < line + 0 {
    bytes += value($0, 2)
    before = $0
    next
}

{
    print sentence($0)
    exit
}

function say(which,    text, name) {
    text = texts[which]
    for (name in V) gsub("[{]" name "[}]", V[name], text)
    return text
}

# The byte of two hex digits.
function value(text, at) {
    return 16 * (index("0123456789ABCDEF", substr(text, at, 1)) - 1) + index("0123456789ABCDEF", substr(text, at + 1, 1)) - 1
}

function sentence(text,    marked) {
    V["line"] = line
    V["before"] = line - 1
    marked = substr(text, length(text)) == "\002"
    if (marked) text = substr(text, 1, length(text) - 1)
    if (before == ":00000001FF") return say("after")
    if (marked && text == "") return say(line == 1 ? "empty" : "end")
    return of_characters(text, marked)
}

function of_characters(text, marked,    at, character) {
    if (text == "") return say("blank")
    if (line == 1 && substr(text, 1, 1) == "\001") return say("raw")
    if (text ~ /\r$/) return say("return")
    if (substr(text, 1, 1) != ":") return say("colon")
    at = match(substr(text, 2), /[^0-9A-F]/)
    if (at == 0) return marked ? say("open") : of_fields(text)
    character = substr(text, at + 1, 1)
    V["at"] = at + 1
    V["character"] = character
    if (character ~ /[a-f]/) return say("small")
    # '&' and '\' have a meaning in what gsub puts in.
    if (character ~ /[^!-~]|[&\\]/) V["character"] = sprintf("the byte %02Xh", code[character])
    else V["character"] = "'" character "'"
    return say("character")
}

function of_fields(text,    count, kind, i, sum) {
    count = value(text, 2)
    kind = substr(text, 8, 2)
    V["characters"] = length(text)
    V["data"] = count
    if (length(text) < 11) return say("short")
    V["wanted"] = 11 + 2 * count
    if (length(text) != V["wanted"]) return say("length")
    for (i = 2; i < length(text) - 1; i += 2) sum += value(text, i)
    V["sum"] = substr(text, length(text) - 1)
    V["wanted"] = sprintf("%02X", (256 - sum % 256) % 256)
    if (V["sum"] != V["wanted"]) return say("sum")
    V["kind"] = kind
    if (kind == "01") return say("ending")
    if (kind != "00") return say("type")
    if (count == 0) return say("nothing")
    if (bytes > 65535) return say("past")
    V["address"] = substr(text, 4, 4)
    V["wanted"] = sprintf("%04X", bytes)
    return say(V["address"] == V["wanted"] ? "other" : "address")
}
