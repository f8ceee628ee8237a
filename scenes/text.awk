# The report as text: the tool's own lines, with the runs of a scene beyond the first 12 folded. With `all` nothing is folded.

function say(line) { print line }
function on_sheet() { if (several) print shown(path[sheet]) }
function on_note(line) { print line }
function on_blank(line) { print line }
function on_fault(line) { print line }
function on_scene(line) { print line }
function on_line(line) { fold(); print line }
function on_row_end() { fold() }
function on_sheet_end() { }
function on_end(result) { say("result: " result) }

function on_run(line) {
    if (all || runs <= 12) print line
    else folded++
}

# The line that stands for the runs that are not printed.
function fold() {
    if (folded) print "         and " plural(folded, "more run") " (--all prints " (folded == 1 ? "it" : "them") ")"
    folded = 0
}
