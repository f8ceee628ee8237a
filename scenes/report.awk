# Reads what the tool prints of sheets, and hands it on in parts to a second script, which says what becomes of them
# (text.awk, csv.awk or page.awk):
#   on_sheet()      a sheet begins; its number is `sheet`, its path path[sheet]
#   on_note(line)   a line about the sheet or its header
#   on_blank(line)  a blank row
#   on_fault(line)  what is wrong with row `row`, which is not played
#   on_scene(line)  the heading of a scene: `row`, `name`
#   on_line(line)   a line of the scene
#   on_run(line)    one of its runs; `runs` counts them
#   on_row_end()    the end of a scene or of a row with faults: `verdict`, `alone`, `first`, `worst`, `moments`, `wrong`
#   on_sheet_end()  the end of a sheet, behind its counts and its closing list
#   on_end(result)  the end of all
#   say(line)       a line of the counts, the closing list or the result
# play puts a line before each sheet and a line behind it. They begin with control character 1, which the tool never prints.
# It gives the paths of the sheets as arguments.

BEGIN {
    for (i = 1; i < ARGC; i++) path[i] = ARGV[i]
    several = ARGC > 2
    ARGC = 1
    status = 0
    sentence[0] = "every scene was read and is right"
    sentence[1] = "not every scene is right"
    sentence[2] = "a row or a sheet could not be read"
    misnamed = "every scene is right, but a column may be misnamed"
}

$0 == "" { next }
/^\001sheet/ { start_sheet(); next }
/^\001ended/ { end_sheet(substr($0, 8)); next }
/^  / { indented($0); next }
{ settle(); outer_line($0) }

END {
    if (playing || sheet == 0) status = 2
    on_end(status == 0 && hints ? misnamed : sentence[status])
    exit status == 0 && hints ? 1 : status
}

function start_sheet() {
    sheet++
    playing = 1
    counts = bad_counted = held = ""
    hinted = in_row = 0
    count["right"] = count["wrong"] = count["nothing asked"] = count["bad"] = 0
    on_sheet()
}

# `ended` is the exit status of the tool, which is not 0 only if it was ended before its end.
function end_sheet(ended) {
    settle()
    end_row()
    if (counts != "") close_list()
    if (ended != 0 || bad_counted == "" || scenes_played() == 0 || count["bad"] > 0) status = 2
    else if (count["right"] < scenes_played() && status < 1) status = 1
    playing = 0
    on_sheet_end()
}

function scenes_played() { return count["right"] + count["wrong"] + count["nothing asked"] }

# A line `row 7: blank` may be the heading of a scene with the name blank. So a heading is held back until the next line comes:
# it is a scene's if that one begins with two blanks, as all lines of a scene do.
function settle() {
    if (held != "") lone_line(held)
    held = ""
}

function indented(line) {
    if (held != "") {
        end_row()
        start_row(held)
        on_scene(held)
        held = ""
    }
    if (in_row) scene_line(line)
    else on_note(line)
}

# A line that is not of a scene, or the heading of one.
function outer_line(line) {
    if (line ~ /^row [0-9]+(: |$)/) held = line
    else if (line ~ /^row [0-9]+, /) fault(line)
    else if (line ~ /^[0-9]+ scenes?, /) { end_row(); counts = line; say(line) }
    else if (line ~ /^[0-9]+ bad rows?$/) { end_row(); bad_counted = line; say(line) }
    else { end_row(); note(line) }
}

# A line `row N: ...` with no scene behind it. Row 1 is the header.
function lone_line(line) {
    if (line == "row " row_of(line) ": blank") { end_row(); on_blank(line) }
    else if (row_of(line) == 1) { end_row(); note(line) }
    else fault(line)
}

# The closing list has the columns that may mean another once more.
function note(line) {
    if (line ~ /' is not used; it may mean '[a-z]+'$/) { hint[++hinted] = line; hints++ }
    on_note(line)
}

# All faults of a row belong together.
function fault(line) {
    if (row_of(line) == 1) { note(line); return }
    if (!in_row || row != row_of(line)) {
        end_row()
        start_row("row " row_of(line))
    }
    on_fault(line)
}

# A row is bad until a verdict is met.
function start_row(heading) {
    row = row_of(heading)
    name = substr(heading, length("row " row ": ") + 1)
    verdict = "bad"
    alone = first = worst = moments = wrong = ""
    runs = 0
    in_row = 1
}

function end_row() {
    if (!in_row) return
    in_row = 0
    rows[verdict, ++count[verdict]] = row
    on_row_end()
}

function scene_line(line,   text) {
    if (line ~ /^  (clocks|      ) [0-9]+\.\.[0-9]+: /) {
        runs++
        on_run(line)
        return
    }
    text = substr(line, 3)
    if (text ~ /^(window|interrupt): /) alone = line_alone(text)
    else if (text ~ /^first wrong at clock /) first = number(substr(text, 22))
    else if (text ~ /^worst at clock /) worst = substr(text, 10)
    else if (text ~ /^verdict: /) take_verdict(substr(text, 10))
    on_line(line)
}

# The line of the interrupt without the menu.
function line_alone(text) {
    if (!sub(/^[a-z]+: line /, "", text)) return "never"
    return number(text)
}

# `wrong, 228 moments, 115 wrong`, or the first word alone.
function take_verdict(text,   swept) {
    if (match(text, /, [0-9]+ moments?, [0-9]+ wrong$/)) {
        swept = substr(text, RSTART + 2)
        text = substr(text, 1, RSTART - 1)
        moments = number(swept)
        sub(/^.*, /, "", swept)
        wrong = number(swept)
    }
    if (text == "right" || text == "wrong" || text == "nothing asked") verdict = text
}

# The digits with which a text begins. They stay text, as awk prints large numbers in another way.
function number(text) {
    match(text, /^[0-9]*/)
    return substr(text, 1, RLENGTH)
}

function row_of(line) { return number(substr(line, 5)) }

function plural(n, noun) { return n " " noun (n == 1 ? "" : "s") }

# What stands behind the two lines of counts.
function close_list(   i, said) {
    list("wrong rows:", "wrong")
    list("rows with nothing asked:", "nothing asked")
    list("bad rows:", "bad")
    for (i = 1; i <= hinted; i++) say(hint[i])
    if (scenes_played() == 0) say("the sheet has no scene that could be played")
    said = plural(scenes_played(), "scene") ", " count["right"] " right, " count["wrong"] " wrong, " \
        count["nothing asked"] " with nothing asked, "
    # If this is said, what the tool prints and this script don't fit together.
    if (index(counts, said) != 1 || bad_counted != plural(count["bad"], "bad row")) {
        say("the counts are not those of the rows: " said plural(count["bad"], "bad row"))
        status = 2
    }
}

# The rows of a kind, as in `3, 5..9, 12`, in lines of up to 100 columns.
function list(title, kind,   i, j, n, line, range) {
    n = count[kind]
    if (n == 0) return
    line = title
    for (i = 1; i <= n; i = j + 1) {
        j = range_end(kind, i)
        range = " " rows[kind, i] (j > i ? ".." rows[kind, j] : "") (j < n ? "," : "")
        if (length(line range) > 100) {
            say(line)
            line = " "
        }
        line = line range
    }
    say(line)
}

# Where the range that begins at place i ends. Two rows make no range.
function range_end(kind, i,   j) {
    for (j = i; j < count[kind] && rows[kind, j + 1] == rows[kind, j] + 1; j++) continue
    return j == i + 1 ? i : j
}

# A path as text of one line: control characters as the tool writes them.
function shown(text,   out, code) {
    while (match(text, /[\001-\037\177]/)) {
        for (code = 1; code < 127 && sprintf("%c", code) != substr(text, RSTART, 1); code++) continue
        out = out substr(text, 1, RSTART - 1) sprintf("\\x%02X", code)
        text = substr(text, RSTART + 1)
    }
    return out text
}
