# The report as one page of HTML: the counts and the rows to look at first, then a section for each row. The style sheet, whose
# path is in the environment, becomes part of it, so the page needs nothing from elsewhere. The counts and the result go to
# standard error too.

BEGIN {
    split("right early late lost never", class, " ")
    split("right,early,late,lost inside the menu,never", means, ",")
    marks = ".<>!x"
}

function say(line) { print line > "/dev/stderr" }
function on_note(line) { notes[++noted] = line }
function on_blank(line) { rows["blank", ++count["blank"]] = row_of(line) }
function on_fault(line) { facts = facts item(substr(line, length("row " row) + 3)) }
function on_scene(line) { }

function on_sheet() {
    noted = count["blank"] = 0
    if (several) {
        say(shown(path[sheet]))
        put("<h2 id=\"s" sheet "\">" sheet_name() "</h2>")
    }
}

# The parts of the page are kept, as what stands first is known last.
function put(html) { body[++parts] = html }
function put_top(html) { top[++top_parts] = html }

function sheet_name() { return path[sheet] == "-" ? "standard input" : esc(shown(path[sheet])) }

function item(text) { return "<li>" esc(text) "</li>\n" }

function label(verdict,   kind) {
    kind = verdict
    sub(/ .*/, "", kind)
    return "<span class=\"label " kind "\">" verdict "</span>"
}

function on_line(line,   text) {
    text = substr(line, 3)
    if (text ~ /^\[.*\]$/) bar_html = bar(substr(text, 2, length(text) - 2))
    else if (text ~ /^(first wrong|worst) at clock /) moments_html = moments_html item(text)
    else if (text !~ /^verdict: /) facts = facts item(text)
}

# A run as a line of a table: clocks, what comes of it, and how far it may drift.
function on_run(line,   text, at, what, slack) {
    text = substr(line, 10)
    at = index(text, ": ")
    what = substr(text, at + 2)
    if (index(what, "; ")) {
        slack = substr(what, index(what, "; ") + 2)
        what = substr(what, 1, index(what, "; ") - 1)
    }
    table[runs] = "<tr><td>" substr(text, 1, at - 1) "</td><td><span class=\"" class[kind_of(what)] "\">" esc(what) \
        "</span></td><td>" esc(slack) "</td></tr>"
}

# The place of a run's mark in `marks`.
function kind_of(what) {
    if (what ~ / early$/) return 2
    if (what ~ / late$/) return 3
    if (what ~ /^set on clock /) return 4
    return what == "never" ? 5 : 1
}

# The bar: cells with the same mark stand in one span. Its label says how many there are of each.
function bar(cells,   n, k, spans, of, text) {
    for (; cells != ""; cells = substr(cells, n + 1)) {
        for (n = 1; substr(cells, n + 1, 1) == substr(cells, 1, 1); n++) continue
        k = index(marks, substr(cells, 1, 1))
        of[k] += n
        spans = spans "<span class=\"" class[k] "\" title=\"" means[k] "\">" esc(substr(cells, 1, n)) "</span>"
    }
    for (k = 1; k <= 5; k++) if (of[k]) text = text (text == "" ? "" : ", ") of[k] " " means[k]
    return "<div class=\"bar\" role=\"img\" aria-label=\"of the bar's columns " text "\">" spans "</div>"
}

function on_row_end() {
    put("<section id=\"" anchor(row) "\">")
    put("<h3>row " row (name == "" ? "" : ": " esc(name)) " " label(verdict) "</h3>")
    if (moments != "") put("<p>" plural(moments, "moment") ", " wrong " wrong</p>")
    put_list(facts)
    if (bar_html != "") put(bar_html)
    put_list(moments_html)
    if (runs > 0) put_runs()
    put("</section>")
    names[row] = name
    facts = bar_html = moments_html = ""
}

function anchor(row) { return "s" sheet "r" row }

function put_list(items) { if (items != "") put("<ul>\n" items "</ul>") }

# All runs are there. They are open if they are few and something is wrong.
function put_runs(   i) {
    put("<details" (verdict == "wrong" && runs <= 12 ? " open" : "") "><summary>" plural(runs, "run") "</summary>")
    put("<table>\n<tr><th>clocks</th><th>interrupt</th><th>drift and margin</th></tr>")
    for (i = 1; i <= runs; i++) put(table[i])
    put("</table></details>")
}

# The sheet's part of what stands first.
function on_sheet_end(   i) {
    if (bad_counted == "") for (i = 1; i <= noted; i++) say(notes[i])
    put_top("<h2>" (several ? "<a href=\"#s" sheet "\">" sheet_name() "</a>" : sheet_name()) "</h2>")
    if (counts != "") put_top("<p>" counts "; " bad_counted "</p>")
    for (i = 1; i <= noted; i++) put_top((i == 1 ? "<ul>\n" : "") item(notes[i]) (i == noted ? "</ul>" : ""))
    links("wrong", count["wrong"] == 1 ? "wrong row" : "wrong rows")
    links("nothing asked", count["nothing asked"] == 1 ? "row with nothing asked" : "rows with nothing asked")
    links("bad", count["bad"] == 1 ? "bad row" : "bad rows")
    blank_rows()
}

# The rows of a kind, each with a link to its section.
function links(kind, noun,   i, row) {
    if (count[kind] == 0) return
    put_top("<details open><summary>" count[kind] " " noun "</summary>\n<ul>")
    for (i = 1; i <= count[kind]; i++) {
        row = rows[kind, i]
        put_top("<li><a href=\"#" anchor(row) "\">row " row (names[row] == "" ? "" : ": " esc(names[row])) "</a></li>")
    }
    put_top("</ul></details>")
}

function blank_rows(   i, j, text) {
    for (i = 1; i <= count["blank"]; i = j + 1) {
        j = range_end("blank", i)
        text = text (i == 1 ? "" : ", ") rows["blank", i] (j > i ? ".." rows["blank", j] : "")
    }
    if (text != "") put_top("<p>blank rows: " text "</p>")
}

function on_end(result,   i, line) {
    say("result: " result)
    print "<!DOCTYPE html>\n<html lang=\"en\">\n<head>\n<meta charset=\"utf-8\">"
    print "<meta name=\"viewport\" content=\"width=device-width, initial-scale=1\">"
    print "<title>Scenes" (sheet == 1 ? ": " sheet_name() : "") "</title>\n<style>"
    while ((getline line < ENVIRON["STYLE"]) > 0) print line
    print "</style>\n</head>\n<body>\n<h1>Scenes</h1>"
    print "<p><span class=\"label " (status == 0 ? "right" : status == 1 ? "wrong" : "bad") "\">" result "</span></p>"
    for (i = 1; i <= top_parts; i++) print top[i]
    print "<p class=\"key\">In a bar each column is a 64th of the clocks up to the interrupt:"
    for (i = 1; i <= 5; i++) print "<span class=\"" class[i] "\">" esc(substr(marks, i, 1)) "</span> " means[i] (i < 5 ? "," : "")
    print "</p>\n<main>"
    for (i = 1; i <= parts; i++) print body[i]
    print "</main>\n</body>\n</html>"
}

# Text as HTML.
function esc(text) {
    if (text ~ /[&<>"]/) {
        gsub(/&/, "\\&amp;", text)
        gsub(/</, "\\&lt;", text)
        gsub(/>/, "\\&gt;", text)
        gsub(/"/, "\\&quot;", text)
    }
    return text ~ /[\200-\377]/ ? utf8(text) : text
}

# Bytes that are no UTF-8 become the sign for that (U+FFFD), or question marks in a text so long that this would take long.
function utf8(text,   out) {
    if (length(text) > 20000) gsub(/[\200-\377]/, "?", text)
    while (text != "") {
        if (match(text, /^([\001-\176]|\302[\240-\277]|[\303-\337][\200-\277]|\340[\240-\277][\200-\277])+/) ||
            match(text, /^([\341-\354\356\357][\200-\277][\200-\277]|\355[\200-\237][\200-\277])+/) ||
            match(text, /^(\360[\220-\277]|[\361-\363][\200-\277]|\364[\200-\217])[\200-\277][\200-\277]/)) {
            out = out substr(text, 1, RLENGTH)
            text = substr(text, RLENGTH + 1)
        } else {
            out = out "\357\277\275"
            text = substr(text, 2)
        }
    }
    return out
}
