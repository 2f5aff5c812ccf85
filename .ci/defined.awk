# What the sources define, a line each, its fields parted by tabs:
#   name CRATE FILE NAME     a definition or theorem of FILE.antt in crates/CRATE/specs or proofs; FILE.Record.field is NAME Record.field
#   spec CRATE FILE          that file
#   fn CRATE TYPE NAME       a function of crates/CRATE/src; TYPE is - where it belongs to none
#   item CRATE TYPE NAME     a constant, type or module of it, or what TYPE has
#   program CRATE            a crate with a main
#   maker SCRIPT NAME        a function of oracle/lists/SCRIPT.py
#   word WORD                a word of any source, remarks left out
function base(path) { sub(/.*\//, "", path); sub(/\.[a-z]*$/, "", path); return path }
function indent(line) { match(line, /^ */); return RLENGTH }

FNR == 1 {
    crate = FILENAME ~ /^crates\// ? FILENAME : ""
    sub(/^crates\//, "", crate)
    sub(/\/.*/, "", crate)
    file = base(FILENAME)
    is_spec = FILENAME ~ /^crates\/[^\/]*\/(specs|proofs)\/[^\/]*\.antt$/
    is_code = FILENAME ~ /^crates\/[^\/]*\/src\/.*\.rt$/
    within = ""
    type = "-"
    if (is_spec)
        print "spec\t" crate "\t" file
    if (is_code) {
        print "item\t" crate "\t-\t" file
        if (file == "main")
            print "program\t" crate
    }
}

is_spec {
    line = $0
    sub(/^ */, "", line)
    marked = sub(/^((abbrev|unfoldable|opaque|pub) )+/, "", line)
    holder = sub(/^(record|data) /, "", line)
    name = line
    sub(/ .*/, "", name)
    defines = line ~ /^[^ ("]+ : / || (line ~ /^[^ ("]+ / && line ~ / :/ && (marked || holder))
    if (defines && name != "let" && name != "--") {
        if (within != "" && indent($0) <= margin)
            within = ""
        if (holder) {
            within = name
            margin = indent($0)
        } else if (within != "")
            print "name\t" crate "\t" file "\t" within "." name
        print "name\t" crate "\t" file "\t" name
    }
}

is_code {
    line = $0
    sub(/^ */, "", line)
    sub(/^pub /, "", line)
    sub(/^extern "C" /, "", line)
    name = line
    sub(/^(fn|const|struct|enum|mod|impl) /, "", name)
    sub(/[^A-Za-z0-9_].*/, "", name)
    if (line ~ /^(struct|enum|impl) /) {
        type = name
        has_members = line !~ /^impl /
        if (has_members)
            print "item\t" crate "\t-\t" name
    } else if (line ~ /^fn /)
        print "fn\t" crate "\t" type "\t" name
    else if (line ~ /^const /)
        print "item\t" crate "\t" type "\t" name
    else if (line ~ /^mod /)
        print "item\t" crate "\t-\t" name
    else if (type != "-" && has_members && indent($0) == 4 && line ~ /^[A-Za-z_][A-Za-z0-9_]*(:|,| \{|\()/)
        print "item\t" crate "\t" type "\t" name
    if ($0 == "}")
        type = "-"
}

FILENAME ~ /^oracle\/lists\/.*\.py$/ && /^ *def / {
    name = $2
    sub(/\(.*/, "", name)
    print "maker\t" file "\t" name
}

{
    line = $0
    sub(/^ *(\/\/|--|#[^a-z!]|\*).*/, "", line)
    while (match(line, /[A-Za-z_][A-Za-z0-9_]*/)) {
        word = substr(line, RSTART, RLENGTH)
        if (!(word in seen)) {
            seen[word]
            print "word\t" word
        }
        line = substr(line, RSTART + RLENGTH)
    }
}
