# Looks up what the documents name in what there is. First the lines of defined.awk, with more of their kind (crate, edit, path,
# heading, elsewhere); then the documents. A fault is a line `documents: FILE:LINE: ..`; the last line counts what was looked up.
#
# In every document: a link, a path, a word in backticks, a word with an underscore, name() and File.name are looked up, the last
# two in the crate that was named before them in the same paragraph or cell, if any was.
#
# In docs/CLAIMS.md a cell is cut at its punctuation, at brackets, and at "and" and "or". Behind a crate, a piece of one word is a name
# too, and so is any word with a hyphen or a capital within: of the file that was named last, else of the crate.
BEGIN { FS = "\t" }

$1 == "crate" { crates[$2]; next }
$1 == "program" { programs[$2]; next }
$1 == "spec" { specs[$2, $3]; anywhere[$3]; next }
$1 == "name" { names[$2, $3, $4]; spec_names[$2, $4]; anywhere[$4]; next }
$1 == "item" || $1 == "fn" {
    if ($3 == "-")
        of_crate[$2, $4]
    members[$2, $3, $4]
    of_type[$3, $4]
    member_names[$2, $4]
    anywhere[$4]
    if ($1 == "fn") {
        functions[$2, $4]
        function_names[$4]
    }
    next
}
$1 == "maker" { makers[$2, $3]; anywhere[$3]; next }
$1 == "word" { words[$2]; next }
$1 == "elsewhere" { elsewhere[$2]; next }
$1 == "edit" { edits[$2, $3]; of_crate[$2, $3]; anywhere[$3]; edit_list[++edit_total] = $2 "\t" $3; next }
$1 == "path" {
    path = $2
    while (path != "") {
        if (!(path in ends_of_paths))
            ends_of_paths[path] = $2
        paths[$2]
        if (path !~ /\//)
            break
        sub(/^[^\/]*\//, "", path)
    }
    next
}
$1 == "heading" { headings[$2, $3]; next }
$1 == "document" { document = $2; line_number = 0; in_fence = 0; forget(); next }

function fault(text) {
    print "documents: " document ":" line_number ": " text
    faults++
}
function forget() { crate = ""; file = ""; list = "" }
function quoted(text) { return "`" text "`" }

# ---- one name each
function is_elsewhere(word) {
    if (!(word in elsewhere))
        return 0
    needed[word]
    return 1
}
function known(word) { return word in anywhere || word in words || word in crates || word in ends_of_paths || is_elsewhere(word) }

function look_up_path(path) {
    sub(/\/$/, "", path)
    sub(/^\.\//, "", path)
    if (path ~ /^target(\/|$)/ || path ~ /(^|\/)(NAME|crate)\//)
        return
    counts["paths"]++
    if (path !~ /\// && folder != "" && (folder path) in paths)
        return
    if (path in ends_of_paths) {
        folder = ends_of_paths[path]
        if (!sub(/[^\/]*$/, "", folder))
            folder = ""
        return
    }
    if (!is_elsewhere(path))
        fault("no file " quoted(path))
}

function look_up_function(word) {
    sub(/\(\)$/, "", word)
    if (word ~ /::/) {
        look_up_member(word)
        return
    }
    counts["functions"]++
    if (crate != "" && ((crate, word) in functions))
        return
    if (crate == "" && (word in function_names || word in words))
        return
    fault("no function " quoted(word "()") (crate == "" ? "" : " in crate " quoted(crate)))
}

# Type::name
function look_up_member(word,    type, name) {
    counts["names"]++
    type = word
    sub(/::.*/, "", type)
    name = word
    sub(/.*::/, "", name)
    if (crate == "" ? ((type, name) in of_type || name in words) : (crate, type, name) in members)
        return
    fault("no " quoted(word) (crate == "" ? "" : " in crate " quoted(crate)))
}

# File.name, File.Record.field
function look_up_in_file(word,    rest) {
    if (is_elsewhere(word))
        return
    counts["names"]++
    file = word
    sub(/\..*/, "", file)
    rest = substr(word, length(file) + 2)
    if (crate == "")
        fault("no crate is named before " quoted(word))
    else if (!((crate, file) in specs))
        fault("no file " quoted("crates/" crate "/specs/" file ".antt"))
    else if (!((crate, file, rest) in names))
        fault("no " quoted(rest) " in " quoted("crates/" crate "/specs/" file ".antt"))
}

# A name by itself, behind a crate and perhaps behind a file of it.
function look_up_name(word) {
    counts["names"]++
    if ((crate, file, word) in names)
        return
    if ((crate, word) in specs) {
        file = word
        return
    }
    if ((crate, word) in edits) {
        name_edit(word)
        return
    }
    if ((crate, word) in of_crate || (crate, word) in member_names || file == "" && (crate, word) in spec_names)
        return
    if (!is_elsewhere(word))
        fault("no " quoted(word) " in " (file == "" ? "crate " quoted(crate) : quoted("crates/" crate "/specs/" file ".antt")))
}

# A word with an underscore, behind a crate: an edit, unless the crate has such a function, constant or module, or the file that was named
# last, or else the crate, such a definition or theorem.
function look_up_edit(word) {
    if ((crate, word) in edits)
        name_edit(word)
    else if ((crate, word) in of_crate || (crate, word) in member_names || (file == "" ? (crate, word) in spec_names : (crate, file, word) in names))
        counts["names"]++
    else if (file == "")
        fault("no edit, function or definition " quoted(word) " in crate " quoted(crate))
    else
        fault("no " quoted(word) " in " quoted("crates/" crate "/specs/" file ".antt"))
}
function name_edit(word) {
    counts["edits"]++
    if (document == "docs/CLAIMS.md")
        named_edits[crate "\t" word]
}

# The function of a list's script, in brackets behind the crate that replays the list.
function look_up_maker(word,    script) {
    counts["names"]++
    script = list
    sub(/_cases$/, "", script)
    if (!((script, word) in makers))
        fault("no function " quoted(word) " in oracle/lists/" script ".py")
}

# B3 is the theorem b3.
function look_up_benchmark(name) {
    counts["names"]++
    if (!(("claims", "Bench", name) in names))
        fault("no " quoted(name) " in " quoted("crates/claims/specs/Bench.antt"))
}

function look_up_program(word) {
    if (!(word in programs))
        fault("the crate " quoted(word) " is no program")
}

function is_file(word) { return word ~ /^[A-Za-z0-9_-]+\.(antt|rt|rs|md|txt|h|c|py|fbs|sha256|toml|edit)$/ }
function is_path(word) { return is_file(word) || word ~ /^[A-Za-z0-9_.-]*\/[A-Za-z0-9_.\/-]*$/ }
function is_rooted(word) { return word ~ /^(crates|docs|oracle|include|rust|jobs|bench|examples|\.ci)\// }
function is_compound(word) { return word ~ /[a-z]-[a-z0-9]|[a-z][A-Z]/ }
function is_word(word) { return word ~ /^[A-Za-z_][A-Za-z0-9_-]*$/ }

# ---- what stands in backticks
function look_up_quoted(text,    count, each, i) {
    if (text in crates) {
        counts["crates"]++
        crate = text
        file = ""
        list = text ~ /_cases$/ ? text : ""
        return
    }
    if (text ~ / /) {
        count = split(text, each, /[^A-Za-z0-9_.\/-]+/)
        for (i = 1; i <= count; i++)
            if (is_rooted(each[i]))
                look_up_path(each[i])
            else if (is_word(each[i]) && (each[i] ~ /[A-Za-z]_[A-Za-z]/ || is_compound(each[i])))
                look_up_loosely(each[i])
        return
    }
    if (text ~ /^[A-Za-z_][A-Za-z0-9_:]*\(\)$/)
        look_up_function(text)
    else if (is_path(text))
        look_up_path(text)
    else if (is_word(text) || text ~ /^[A-Za-z_][A-Za-z0-9_]*::[A-Za-z_][A-Za-z0-9_]*$/)
        look_up_loosely(text)
}
function look_up_loosely(word,    last) {
    counts["names"]++
    last = word
    sub(/.*::/, "", last)
    if (!known(word) && !known(last))
        fault("nothing is called " quoted(word))
}

# ---- a word as it stands: `alone` in its piece, or `behind` a crate and perhaps `last` in its piece
function look_up_word(word, alone, behind, last, in_brackets, strict) {
    if (word ~ /^[0-9,.\/^+-]*$/)
        return
    if (word ~ /^B[0-9]+$/)
        look_up_benchmark("b" substr(word, 2))
    else if (is_path(word) && (is_rooted(word) || word ~ /\.[a-z0-9]+$/))
        look_up_path(word)
    else if (word ~ /^[A-Za-z_][A-Za-z0-9_:]*\(\)$/)
        look_up_function(word)
    else if (word ~ /::/)
        look_up_member(word)
    else if (word ~ /^[A-Z][A-Za-z0-9]*\.[A-Za-z]/)
        look_up_in_file(word)
    else if (strict && list != "" && in_brackets && (word ~ /_/ || alone && is_word(word)))
        look_up_maker(word)
    else if (word ~ /^[A-Za-z0-9]+(_[A-Za-z0-9]+)+$/) {
        if (strict && crate != "" && !(word in crates))
            look_up_edit(word)
        else
            look_up_loosely(word)
    } else if (strict && crate != "" && is_word(word))
        if (alone || is_compound(word) || behind && (last || word ~ /^[A-Z]/))
            look_up_name(word)
}

# ---- a piece of a cell: its words, which stand between two marks of punctuation
function look_up_piece(count, piece, in_brackets, strict,    i, word, behind, before) {
    for (i = 1; i <= count; i++) {
        word = piece[i]
        if (word ~ /^\001/) {
            word = stash[substr(word, 2) + 0]
            look_up_quoted(word)
            behind = word in crates
            if (behind && before ~ /^programs?$/)
                look_up_program(word)
        } else {
            gsub(/\002/, "()", word)
            sub(/'s?$/, "", word)
            look_up_word(word, count == 1, behind, i == count, in_brackets, strict)
            behind = 0
        }
        before = word
    }
}

# A text is cut into pieces. What stands in backticks is put aside first, so that it is not cut.
function look_up_text(text, strict,    count, each, i, word, piece, size, in_brackets, ends, stops, opens, closes) {
    stashed = 0
    folder = ""
    gsub(/\*\*/, "", text)
    while (match(text, /`[^`]*`/)) {
        stash[++stashed] = substr(text, RSTART + 1, RLENGTH - 2)
        text = substr(text, 1, RSTART - 1) "\001" stashed substr(text, RSTART + RLENGTH)
    }
    if (text ~ /`/)
        fault("a backtick has no other on its line")
    gsub(/\(\)/, "\002", text)
    count = split(text, each, / +/)
    size = 0
    in_brackets = 0
    for (i = 1; i <= count; i++) {
        word = each[i]
        opens = sub(/^[("\[]+/, "", word)
        if (opens && size) {
            look_up_piece(size, piece, in_brackets, strict)
            size = 0
        }
        if (opens)
            in_brackets = 1
        closes = word ~ /\)/
        stops = word ~ /\.[")]*$/ && each[i + 1] ~ /^[A-Z\001]/
        ends = sub(/[]),;:."?!]+('s)?[]),;:."]*$/, "", word)
        if (word == "and" || word == "or")
            ends = 1
        else if (word != "")
            piece[++size] = word
        if (ends || i == count) {
            look_up_piece(size, piece, in_brackets, strict)
            size = 0
        }
        if (closes)
            in_brackets = 0
        if (stops)
            forget()
    }
}

# ---- what holds a difference: a theorem of `format` that computes it, or of the crate in brackets behind it
function look_up_held_by(text,    rest, word, of) {
    rest = text
    while (match(rest, /`[a-z0-9_-]+`( \([a-z_]+\))?/)) {
        word = substr(rest, RSTART + 1, RLENGTH - 1)
        rest = substr(rest, RSTART + RLENGTH)
        of = word
        sub(/`.*/, "", word)
        counts["names"]++
        if (sub(/.*\(/, "", of)) {
            sub(/\)/, "", of)
            if (!((of, word) in spec_names))
                fault("no " quoted(word) " in crate " quoted(of))
        } else if (!(is_difference("Written", word) || is_difference("Read", word) || is_difference("Properties", word)))
            fault("no " quoted(word) " in the Differences of crate " quoted("format"))
    }
    gsub(/`[^`]*`/, "", text)
    look_up_text(text, 0)
}

function is_difference(sort, word) { return ("format", "Differences" sort, word) in names }

function crate_of(cell) {
    sub(/^`/, "", cell)
    sub(/`.*/, "", cell)
    return cell
}

# ---- links
function look_up_links(text,    link, target, anchor, from) {
    while (match(text, /\]\([^)]*\)/)) {
        link = substr(text, RSTART + 2, RLENGTH - 3)
        text = substr(text, RSTART + RLENGTH)
        if (link ~ /^[a-z]+:/)
            continue
        counts["links"]++
        anchor = ""
        target = link
        if (link ~ /#/) {
            anchor = link
            sub(/.*#/, "", anchor)
            sub(/#.*/, "", target)
        }
        from = document
        if (!sub(/[^\/]*$/, "", from))
            from = ""
        target = target == "" ? document : from target
        while (sub(/[^\/]+\/\.\.\//, "", target)) {
        }
        sub(/\/$/, "", target)
        if (!(target in paths))
            fault("no file behind the link " quoted(link))
        else if (anchor != "" && !((target, anchor) in headings))
            fault("no heading behind the link " quoted(link))
    }
}

# ---- a document, line by line; a text's lines begin with a tab
{
    line_number++
    line = substr($0, 2)
    if (line ~ /^```/) {
        in_fence = !in_fence
        next
    }
    look_up_links(line)
    gsub(/\]\([^)]*\)/, "]", line)
    if (line == "" || line ~ /^#/) {
        forget()
        header = ""
    }
    if (in_fence || line ~ /^    /) {
        forget()
        look_up_text(line, 0)
        next
    }
    if (line !~ /^\|/) {
        header = ""
        if (line ~ /^- /)
            forget()
        look_up_text(line, document == "docs/CLAIMS.md")
        next
    }
    if (line ~ /^\|[-| ]*\|$/)
        next
    columns = split(line, cells, /\|/)
    if (header == "") {
        header = line
        next
    }
    for (column = 2; column < columns; column++) {
        forget()
        cell = cells[column]
        sub(/^ +/, "", cell)
        sub(/ +$/, "", cell)
        if (column == 2 && header ~ /^\| crate \|/ && is_word(cell)) {
            counts["crates"]++
            if (!(cell in crates))
                fault("no crate " quoted(cell))
        } else if (column == 2 && header ~ /^\| run \|/ && crate_of(cell) in crates)
            look_up_program(crate_of(cell))
        else if (document == "docs/DIFFERENCES.md" && column == columns - 1)
            look_up_held_by(cell)
        else
            look_up_text(cell, document == "docs/CLAIMS.md" && column > 2)
    }
    forget()
}

END {
    for (i = 1; i <= edit_total; i++)
        if (!(edit_list[i] in named_edits)) {
            split(edit_list[i], one, "\t")
            print "documents: docs/CLAIMS.md does not name the edit " quoted(one[2]) " of crate " quoted(one[1])
            faults++
        }
    for (word in elsewhere)
        if (!(word in needed)) {
            print "documents: .ci/elsewhere: no document needs " quoted(word)
            faults++
        }
    printf "documents: %d names, %d functions, %d edits, ", counts["names"], counts["functions"], counts["edits"]
    printf "%d crates, %d files, %d links\n", counts["crates"], counts["paths"], counts["links"]
    exit (faults > 0)
}
