# Prints the modules of a crate that import one another, directly or through others, one a line:
#   awk -f cycles.awk crates/CRATE/src/FILE.rt...
# tests/layers.sh runs it. It reads the `use` statements, except those of tests, which are at the
# end of a file. A module is named by its path from `crate`, the root.

FNR == 1 {
    here = FILENAME
    sub(/.*\/src\//, "", here)
    sub(/\.rt$/, "", here)
    gsub(/\//, "::", here)
    here = here == "lib" || here == "main" ? "crate" : "crate::" here
    is_module[here]
    module[++modules] = here
    is_test = is_use = 0
}
/^#\[cfg\(test\)\]/ { is_test = 1 }
is_test { next }
/^(pub(\([a-z]+\))? )?use / { is_use = 1; statement = "" }
is_use {
    sub(/\/\/.*/, "")
    statement = statement " " $0
    if ($0 !~ /;/) next
    is_use = 0
    sub(/^ *(pub(\([a-z]+\))? )?use /, "", statement)
    sub(/;.*/, "", statement)
    gsub(/ as [A-Za-z0-9_]+/, "", statement)
    gsub(/ /, "", statement)
    uses[here] = uses[here] statement ";"
}

END {
    for (i = 1; i <= modules; i++) {
        count = split(uses[module[i]], part, ";")
        for (j = 1; j < count; j++) expand(module[i], "", part[j])
    }
    # Adds to `reaches` what a module imports through others.
    for (k = 1; k <= modules; k++)
        for (i = 1; i <= modules; i++) if ((module[i], module[k]) in reaches)
            for (j = 1; j <= modules; j++) if ((module[k], module[j]) in reaches)
                reaches[module[i], module[j]]
    for (i = 1; i <= modules; i++) if ((module[i], module[i]) in reaches) print module[i]
}

# Notes what a module imports: the paths of a statement, whose braces may be nested.
function expand(from, front, path,    open, inside, level, i, sign, item) {
    open = index(path, "{")
    if (open == 0) {
        imports(from, front path)
        return
    }
    front = front substr(path, 1, open - 1)
    inside = substr(path, open + 1, length(path) - open - 1) ","
    for (i = 1; i <= length(inside); i++) {
        sign = substr(inside, i, 1)
        if (sign == "," && level == 0) {
            if (item != "") expand(from, front, item)
            item = ""
            continue
        }
        level += (sign == "{") - (sign == "}")
        item = item sign
    }
}

# Notes the module that a path names or is in: the longest prefix of the path that is a module.
function imports(from, path,    part, count, i, at, found) {
    count = split(path, part, "::")
    i = 1
    at = from
    if (part[1] == "crate") {
        at = "crate"
        i = 2
    } else if (part[1] == "self") i = 2
    else if (part[1] == "super")
        for (; part[i] == "super"; i++) sub(/::[^:]*$/, "", at)
    else if (!((at "::" part[1]) in is_module)) return
    found = at
    for (; i <= count; i++) {
        at = at "::" part[i]
        if (!(at in is_module)) break
        found = at
    }
    if (found != from) reaches[from, found]
}
