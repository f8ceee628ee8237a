# The report as a table: a line for each row, so that it can stand beside the sheet. What the text report says of faults, the counts and the result
# go to standard error.

BEGIN { print (several ? "sheet," : "") "row,scene,verdict,line,first wrong clock,worst,moments,wrong" }

function say(line) { print line > "/dev/stderr" }
function on_sheet() { if (several) say(shown(path[sheet])) }
function on_note(line) { say(line) }
function on_blank(line) { print (several ? cell(path[sheet]) "," : "") row_of(line) ",,blank,,,,," }
function on_fault(line) { say(line) }
function on_scene(line) { heading = line }
function on_run(line) { }
function on_sheet_end() { }
function on_end(result) { say("result: " result) }

# The one fault that stands below the heading of its scene.
function on_line(line) { if (line == "  no board takes these lengths") { say(heading); say(line) } }

function on_row_end() {
    print (several ? cell(path[sheet]) "," : "") row "," cell(name) "," verdict "," alone "," first "," cell(worst) "," \
        moments "," wrong
}

# A cell by RFC 4180. A spreadsheet may take a cell that begins with = + - @ for a formula: LibreOffice Calc computes =1+2, in
# quotes too. Such a cell gets an apostrophe in front, also if blanks stand before the sign. Calc then shows it as text, with
# the apostrophe.
function cell(text) {
    if (text ~ /^ *[=+@-]/) text = "'" text
    if (text !~ /[",\r\n]|^ | $/) return text
    gsub(/"/, "\"\"", text)
    return "\"" text "\""
}
