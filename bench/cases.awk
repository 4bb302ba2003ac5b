# Reads files of cases, as docs/DEVELOPING.md has them, and writes each case below the folder INTO
# as files of its own: FILE/CASE.txt is the bundle; CASE.txt.stdout and .stderr, .accepted and .way
# are what is wanted of it, and CASE.txt.at is where it stands. Files that are used are those of
# the folder EXAMPLES.

function fault(what) {
    print FILENAME ":" FNR ": " what "\n" >"/dev/stderr"
    failed = 1
    exit 2
}

function put(kind, bytes,   path) {
    path = ENVIRON["INTO"] "/" layer "/" name kind
    print bytes >path
    close(path)
}

# ---- the bytes of a bundle, an output or a text

# Blank lines wait until something follows, since those at a part's end are not part of it.
function add(bytes) {
    body = body blank bytes
    blank = ""
}

function add_line(line) {
    if (line == "") blank = blank "\n"
    else add(line "\n")
}

function octal(digits) {
    return sprintf("%c", substr(digits, 1, 1) * 64 + substr(digits, 2, 1) * 8 + substr(digits, 3))
}

# \n \r \t \\ and three octal digits, as printf has them
function unescaped(text,   out, at, code) {
    while ((at = index(text, "\\")) > 0) {
        out = out substr(text, 1, at - 1)
        code = substr(text, at + 1, 3)
        if (code !~ /^[0-3][0-7][0-7]$/) code = substr(code, 1, 1)
        if (code ~ /^[0-3]../) out = out octal(code)
        else if (code in letters) out = out letters[code]
        else fault("no such byte: \\" code)
        text = substr(text, at + 1 + length(code))
    }
    return out text
}

function add_times(words,   times, text) {
    if (words !~ /^[0-9]+ ./) fault("how often, and what?")
    times = words + 0
    sub(/^[0-9]+ /, "", words)
    for (text = unescaped(words); times > 0; times--) add(text)
}

# ---- texts that are used, and their edits

function read_text(file,   path, line, text) {
    path = ENVIRON["EXAMPLES"] "/" file
    while ((getline line <path) > 0) text = text line "\n"
    close(path)
    if (text == "") fault("there is no file examples/" file)
    return text
}

function text_of(wanted) {
    if ((layer, wanted) in texts) return texts[layer, wanted]
    if (("texts", wanted) in texts) return texts["texts", wanted]
    if (wanted !~ /\//) fault("there is no text " wanted)
    return texts["texts", wanted] = read_text(wanted)
}

function use(wanted) {
    add("")
    count = split(text_of(wanted), lines, "\n")
    last_feed = lines[count] == "" ? "\n" : ""
    if (last_feed) count--
    split("", gone)
    split("", behind)
    each = ""
    using = 1
    at = 0
}

# the next line that is so, behind the one where the edits stand
function go_to(line) {
    for (at++; at <= count; at++) if (!(at in gone) && lines[at] == line) return
    fault("the text has no such line, or none from there on: " line)
}

function drop_each(line,   number) {
    each = ""
    for (number = at + 1; number <= count; number++) {
        if (lines[number] != line) continue
        gone[number] = 1
        each = each number " "
    }
    if (each == "") fault("the text has no such line, or none from there on: " line)
}

function add_to_each(line,   number, numbers) {
    if (each == "") fault("it stands below an edit of each such line")
    for (number = split(each, numbers, " "); number > 0; number--)
        behind[numbers[number]] = behind[numbers[number]] line "\n"
}

function edit(word, line) {
    if (!using) fault("an edit stands below a text that is used")
    if (word == "@") go_to(line)
    else if (word == "@-") { go_to(line); gone[at] = 1 }
    else if (word == "@+") behind[at] = behind[at] line "\n"
    else if (word == "@--") drop_each(line)
    else add_to_each(line)
}

# what is left of the text that is used
function settle(   number) {
    if (!using) return
    using = 0
    add(behind[0])
    for (number = 1; number <= count; number++) {
        if (!(number in gone)) add(lines[number] (number < count ? "\n" : last_feed))
        add(behind[number])
    }
}

# ---- parts

function end_part() {
    settle()
    if (part == "text") texts[layer, name] = body
    else if (part != "") put(part, body)
    part = body = blank = ""
}

function end_case() {
    end_part()
    if (in_case && wanted_of_it == "") fault("nothing is wanted of the case above")
    in_case = 0
}

function begin(kind, named) {
    end_case()
    if (named !~ /^[a-z][a-z0-9_]*$/) fault("a name has a to z, 0 to 9 and _")
    if ((layer, kind, named) in seen) fault("the name stands twice: " named)
    seen[layer, kind, named] = 1
    name = named
    part = kind
}

function want(kind) {
    if (!in_case) fault("this stands in a case")
    if (index(wanted_of_it, kind)) fault("the case has one above")
    end_part()
    part = kind
    wanted_of_it = wanted_of_it kind
}

function directive(word, rest) {
    if (word == "@" || word ~ /^@(--?|\+\+?)$/) { edit(word, rest); return }
    settle()
    if (word == "@text") begin("text", rest)
    else if (word == "@case") {
        begin(".txt", rest)
        put(".txt.at", FILENAME ":" FNR ": " name "\n")
        in_case = 1
        wanted_of_it = ""
    } else if (word ~ /^@(stdout|stderr|way)$/) want(".txt." substr(word, 2))
    else if (word == "@accepted") { want(".txt.accepted"); add_line(rest); end_part() }
    else if (part == "") fault("this stands in a text or a case")
    else if (word == "@use") use(rest)
    else if (word == "@raw") add(unescaped(rest))
    else if (word == "@times") add_times(rest)
    else fault("there is no " word)
}

BEGIN {
    ORS = ""
    letters["n"] = "\n"
    letters["r"] = "\r"
    letters["t"] = "\t"
    letters["\\"] = "\\"
}
FNR == 1 {
    end_case()
    layer = FILENAME
    sub(/.*\//, "", layer)
    sub(/\.cases$/, "", layer)
}
/^@#/ { next }
/^@/ {
    word = $0
    sub(/ .*/, "", word)
    directive(word, substr($0, length(word) + 2))
    next
}
part != "" { settle(); add_line($0) }
part == "" && in_case && $0 != "" { fault("this belongs to no part of the case") }
END { if (!failed) end_case() }
