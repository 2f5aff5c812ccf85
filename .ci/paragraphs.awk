# Every text of the repository: a paragraph of docs/SPEC.md that it cites (`SPEC 6.12`, and more behind it by a comma, "and" or "to")
# is there, and no text leans on a paper that is not here.
# The paragraphs come first, as lines `**6.12** ..` of docs/SPEC.md, where there is one; then the texts, it among them.
function fault(text) {
    print "documents: " FILENAME ":" FNR ": " text
    faults++
}

FNR == 1 { files++ }

files == 1 && FILENAME == "docs/SPEC.md" && /^\*\*[0-9.]+\*\* / {
    number = $1
    gsub(/\*/, "", number)
    if (number in paragraphs)
        fault("two paragraphs " number)
    paragraphs[number]
    while (sub(/\.[0-9]+$/, "", number))
        chapters[number]
}
files == 1 && FILENAME == "docs/SPEC.md" { next }

function cite(text,    count, each, i) {
    gsub(/, | and | to /, " ", text)
    count = split(text, each, / +/)
    for (i = 1; i <= count; i++) {
        cited++
        if (!(each[i] in paragraphs) && !(each[i] in chapters))
            fault("no paragraph " each[i] " in docs/SPEC.md")
    }
}

{
    line = $0
    while (match(line, /SPEC [0-9]+(\.[0-9]+)*((, | and | to )[0-9]+\.[0-9]+)*/)) {
        cite(substr(line, RSTART + 5, RLENGTH - 5))
        line = substr(line, RSTART + RLENGTH)
    }
}

# A row of docs/CLAIMS.md may begin with the paragraph alone.
FILENAME == "docs/CLAIMS.md" && match($0, /^\| [0-9]+\.[0-9]+((, | and | to )[0-9]+\.[0-9]+)*/) { cite(substr($0, 3, RLENGTH - 2)) }

/(^|[^A-Za-z])[Pp]apers?([^A-Za-z]|$)/ { fault("leans on a paper that is not here") }

# 01 or 02 as a document's name. In a row of bytes, or in quotes, it is a byte.
{
    line = " " $0 " "
    gsub(/[^0-9A-Za-z_][0-9A-Fa-f][0-9A-Fa-f]( [0-9A-Fa-f][0-9A-Fa-f])+[^0-9A-Za-z_]/, " ", line)
    gsub(/"0[12]"/, "", line)
    if (line ~ /[^0-9A-Za-z_.,#\/-]0[12]([^0-9A-Za-z_.]|\.[^0-9])/)
        fault("leans on a paper that is not here")
}

END {
    printf "documents: %d citations of docs/SPEC.md\n", cited
    exit (faults > 0)
}
