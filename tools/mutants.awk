# Applies one mutant of the list to the definitions: the `number`-th, to files below `crates`. A mutant is a line `# name` and changes, each a file, the
# old text, which stands there once, and the new text. A line that begins with a bar goes on with the text of the line before it.
function read_all(path,    line, text) {
    text = ""
    while ((getline line < path) > 0) text = text line "\n"
    close(path)
    return text
}

function apply(    path, text, at, rest) {
    if (file == "") return
    path = crates "/" file
    text = read_all(path)
    at = index(text, old)
    rest = substr(text, at + length(old))
    if (at == 0 || old == "" || index(rest, old) > 0) {
        print "not once in " file ": " old
        failed = 1
        exit 1
    }
    printf "%s", substr(text, 1, at - 1) new rest > path
    close(path)
    file = ""
}

/^# / { apply(); met++; next }
met != number { next }
/^file: / { apply(); file = substr($0, 7) }
/^old: / { old = substr($0, 6); part = "old" }
/^new:/ { new = substr($0, 6); part = "new" }
/^\|/ {
    if (part == "old") old = old "\n" substr($0, 2)
    else new = new "\n" substr($0, 2)
}
END { if (!failed) apply() }
