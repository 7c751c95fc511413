# The types of a source file: its modules, its enums and structs, and the uses of what these name. Functions and constants are left out.

# notes each type that a use brings, as a use of its own
function brought(text,    path, names, n, a, i) {
    sub(/^use /, "", text)
    sub(/;.*$/, "", text)
    path = text
    if (path ~ /{/) {
        names = path
        sub(/{.*$/, "", path)
        sub(/^[^{]*{/, "", names)
        sub(/}.*$/, "", names)
    } else {
        names = path
        sub(/[A-Za-z_0-9]*$/, "", path)
        names = substr(names, length(path) + 1)
    }
    n = split(names, a, /[ \t]*,[ \t]*/)
    for (i = 1; i <= n; i++) {
        gsub(/[ \t]/, "", a[i])
        if (a[i] ~ /^[A-Z][a-z]/) { name[++count] = a[i]; uses[count] = "use " path a[i] ";" }
    }
}

/^(pub )?mod / { print }
/^use / { using = "" ; bringing = 1 }
bringing { using = using $0; if (/;/) { brought(using); bringing = 0 } }
/^(pub(\(crate\))? )?struct .*;$/ { types = types $0 "\n" }
/^(pub(\(crate\))? )?(enum|struct) .*{$/ { inside = 1 }
inside { types = types $0 "\n" }
/^}/ { inside = 0 }
END {
    for (i = 1; i <= count; i++) if (types ~ ("[^A-Za-z]" name[i] "[^A-Za-z]")) print uses[i]
    printf "%s", types
}
