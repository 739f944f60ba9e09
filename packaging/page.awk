# Makes a manual page of a document of docs/: awk -v name=cordkit-start -v date='November 29, 2026' -f page.awk docs/START.md. It knows what these documents have:
# headings, paragraphs, lists, tables, blocks of code, code and strong words within lines, and links.

# Bytes that a formatter would take for its own, or show as others.
function plain(words) {
    gsub(/\\/, "\\e", words)
    gsub(/-/, "\\-", words)
    gsub(/'/, "\\(aq", words)
    gsub(/\^/, "\\(ha", words)
    gsub(/~/, "\\(ti", words)
    return words
}

function text(words) {
    gsub(/\\\|/, "|", words)
    words = plain(words)
    while (match(words, /!?\[[^]]*\]\([^)]*\)/)) {
        link = substr(words, RSTART, RLENGTH)
        words = substr(words, 1, RSTART - 1) linked(link) substr(words, RSTART + RLENGTH)
    }
    return marked(marked(words, "\\*\\*[^*]+\\*\\*", 2), "`[^`]+`", 1)
}

# What stands between two marks is bold.
function marked(words, pattern, width,    done) {
    done = ""
    while (match(words, pattern)) {
        done = done substr(words, 1, RSTART - 1) "\\fB" substr(words, RSTART + width, RLENGTH - 2 * width) "\\fR"
        words = substr(words, RSTART + RLENGTH)
    }
    return done words
}

# A link to a document that is a manual page is that page's name; any other one is its own words, and nothing of a picture is left.
function linked(link,    words, to) {
    if (link ~ /^!/) return ""
    words = link
    sub(/^\[/, "", words)
    sub(/\]\(.*$/, "", words)
    to = link
    sub(/^.*\]\(/, "", to)
    sub(/[#)].*$/, "", to)
    sub(/^.*\//, "", to)
    if (to ~ /^(START|COMMIT|EDITORS?|FAQ)\.md$/) {
        sub(/\.md$/, "", to)
        return "\\fBcordkit\\-" tolower(to) "\\fR(7)"
    }
    if (to == "FORMAT.md") return "\\fBcord\\-image\\fR(5)"
    return words
}

# A paragraph, in lines of at most 78 bytes.
function put(words,    n, k, parts, line) {
    n = split(text(words), parts, " ")
    line = ""
    for (k = 1; k <= n; k++) {
        if (line != "" && length(line) + length(parts[k]) > 77) { put_line(line); line = "" }
        line = line == "" ? parts[k] : line " " parts[k]
    }
    put_line(line)
}

function put_line(line) { if (line ~ /^\./) line = "\\&" line; if (line != "") print line }

# What was gathered of a paragraph or of an entry of a list.
function flush() {
    if (gathered == "") return
    if (entry) { print ".IP \\(bu 2"; fresh = 0 }
    else paragraph()
    put(gathered)
    gathered = ""
    entry = 0
}

# A section's first paragraph begins with it.
function paragraph() { if (!fresh) print ".PP"; fresh = 0 }
function section(words) { print ".SH " words; fresh = 1 }

function literal(line) {
    gsub(/`/, "\\(ga", line)
    line = plain(line)
    print line ~ /^\./ ? "\\&" line : line
}

function begin_code() { flush(); paragraph(); print ".RS 4"; print ".nf" }
function end_code() { print ".fi"; print ".RE"; code = 0 }

function row(line,    n, k, cells, rest) {
    gsub(/\\\|/, "\001", line)
    n = split(line, cells, /\|/)
    rest = ""
    for (k = 3; k < n; k++) rest = rest (rest == "" ? "" : "; ") trim(cells[k])
    gsub(/\001/, "|", cells[2])
    gsub(/\001/, "|", rest)
    if (trim(cells[2]) == "" && rest ~ /^[; ]*$/) return
    print ".TP"
    fresh = 0
    put(trim(cells[2]) == "" ? "-" : trim(cells[2]))
    put(rest == "" ? "-" : rest)
}

# A date such as November 29, 2026.
function in_numbers(date,    parts) {
    split(date, parts, /[ ,]+/)
    months = "JanFebMarAprMayJunJulAugSepOctNovDec"
    return sprintf("%d-%02d-%02d", parts[3], (index(months, substr(parts[1], 1, 3)) + 2) / 3, parts[2])
}

function trim(words) { gsub(/^ +| +$/, "", words); return words }

/^# / && !begun {
    begun = 1
    printf ".TH %s 7 %s cordkit\n.SH NAME\n", toupper(name), in_numbers(date)
    title = text(substr($0, 3))
    dashed = name
    gsub(/-/, "\\-", dashed)
    print dashed " \\- " tolower(substr(title, 1, 1)) substr(title, 2)
    section("DESCRIPTION")
    next
}
/^```/ { if (code) end_code(); else { begin_code(); code = 1; fence = 1 }; next }
code && fence { literal($0); next }
code && /^(    |$)/ { literal(substr($0, 5)); next }
code { end_code() }
/^    / && gathered == "" { begin_code(); code = 1; fence = 0; literal(substr($0, 5)); next }
/^##+ / { flush(); sub(/^#+ /, ""); section(toupper(text($0))); next }
/^\|/ { flush(); if (heading == "") { heading = "seen"; next } if ($0 !~ /^\|[-| ]*\|$/) row($0); next }
{ heading = "" }
/^$/ { flush(); next }
/^- / { flush(); entry = 1; gathered = substr($0, 3); next }
{ sub(/^ +/, ""); gathered = gathered == "" ? $0 : gathered " " $0 }
END {
    flush()
    if (code) end_code()
    print ".SH SEE ALSO"
    print ".BR cordkit (1),"
    print ".BR cordedit (1)."
    print "Other documents that are named here lie in"
    print ".I share/doc/cordkit"
    print "beside the program\\(aqs folder."
}
