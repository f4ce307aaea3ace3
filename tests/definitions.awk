# Prints the definitions that clauses cite, and the definitions that these cite: a line for each
# head, equation, field and constructor, with the file, and two spaces before all but the head:
#   awk -f definitions.awk TEXTS FILE.rt... FILE.antt...
# tests/clauses.sh runs it. TEXTS has the clauses; the .rt files import the names in them. Each
# .antt file is a module of definitions, and specs/Lib.antt of a crate says which modules of others
# it exports. At the end it prints what some imported names mean (tell_meanings).

FILENAME == ARGV[1] {
    cite($0)
    next
}

# A module of another crate that a crate exports: `handed_on` leads to it from the name that it has
# as a module of the exporting crate.
/^pub use [^{]*$/ && FILENAME ~ /\/Lib\.antt$/ {
    name = $3
    sub(/.*\./, "", name)
    module = module_of(FILENAME)
    sub(/Lib$/, name, module)
    handed_on[module] = $3
    next
}

# Imports, which may take several lines in a .rt file.
/^ *ghost use / || /^(pub )?use / && FILENAME ~ /\.antt$/ {
    importing = ""
    is_import = 1
}
is_import {
    importing = importing " " $0
    if (FILENAME ~ /\.rt$/ && $0 !~ /;/) next
    import(importing)
    is_import = 0
    next
}
FILENAME ~ /\.rt$/ { next }

# A definition begins with its type, and its lines follow that.
/^ *(--.*)?$/ || /^(pub )?mod / { next }
/^(abbrev|unfoldable|pub|data|record) / || /^[^ ]+ : / {
    count++
    file[count] = FILENAME
    text[count] = $0
    name = $0
    sub(/^((abbrev|unfoldable|pub|data|record) )*/, "", name)
    defines(name)
    next
}
# Each equation, field and constructor begins a line, and a line with three spaces or more continues
# it. A constructor's name stands for the definition too.
{
    text[count] = text[count] (/^   / ? " " : "\n  ") substr($0, match($0, /[^ ]/))
    if (/^  [A-Z]/) defines(substr($0, 3))
}

# Notes the name of the definition that was read last. `name` is the name and the rest of its line.
function defines(name) {
    sub(/[ :].*/, "", name)
    definition[module_of(FILENAME), name] = count
}

# crates/CRATE/specs/MODULE.antt is Rattle.CRATE.specs.MODULE.
function module_of(path) {
    sub(/.*crates\//, "Rattle.", path)
    sub(/\.antt$/, "", path)
    gsub(/\//, ".", path)
    return path
}

# Notes what an import names: each item, or the module itself.
function import(line,    is_passed, module, names, total, i, parts, name) {
    is_passed = line ~ /^ *pub /
    sub(/^ *((ghost|pub) )?use +/, "", line)
    gsub(/[;}]/, "", line)
    module = line
    if (index(line, "{") == 0) {
        total = split(line, parts, " as ")
        sub(/ +$/, "", parts[total])
        sub(/.*\./, "", parts[total])
        sub(/ as .*/, "", module)
        module_named[FILENAME, parts[total]] = module
        return
    }
    sub(/\.?[{].*/, "", module)
    sub(/.*[{]/, "", line)
    total = split(line, names, ",")
    for (i = 1; i <= total; i++) {
        gsub(/^ +| +$/, "", names[i])
        if (names[i] == "") continue
        parts[2] = ""
        split(names[i], parts, " as ")
        name = parts[2] == "" ? parts[1] : parts[2]
        item_of[FILENAME, name] = module SUBSEP parts[1]
        if (is_passed) passed_on[module_of(FILENAME), name] = module SUBSEP parts[1]
        if (FILENAME ~ /\.rt$/) importer[name, ++importers] = FILENAME
    }
}

# Notes the names in a clause.
function cite(line,    names, total, i) {
    total = split(line, names, /[^A-Za-z0-9_'.-]+/)
    for (i = 1; i <= total; i++) is_cited[names[i]]
}

# The module that defines an item, and the item's name there. Modules that only export it do not
# count.
function origin(key,    parts) {
    split(key, parts, SUBSEP)
    if (parts[1] in handed_on) return origin(handed_on[parts[1]] SUBSEP parts[2])
    if (!(key in definition) && key in passed_on) return origin(passed_on[key])
    return key
}

# The number of the definition that a name means in a file, or 0.
function meant(path, name,    key, parts) {
    key = module_of(path) SUBSEP name
    if (!(key in definition)) {
        if ((path, name) in item_of) key = item_of[path, name]
        else if (split(name, parts, ".") == 2 && (path, parts[1]) in module_named)
            key = module_named[path, parts[1]] SUBSEP parts[2]
    }
    key = origin(key)
    return key in definition ? definition[key] : 0
}

# Reaches a definition, and all that it cites.
function reach(which,    names, total, i) {
    if (which == 0 || is_reached[which]) return
    is_reached[which] = 1
    total = split(text[which], names, /[^A-Za-z0-9_'.-]+/)
    for (i = 1; i <= total; i++) reach(meant(file[which], names[i]))
}

END {
    for (key in importer) {
        split(key, parts, SUBSEP)
        if (parts[1] in is_cited) reach(meant(importer[key], parts[1]))
    }
    for (i = 1; i <= count; i++) {
        if (!is_reached[i]) continue
        gsub(/\n/, "\n" file[i] "\t", text[i])
        print file[i] "\t" text[i]
        is_used[file[i]]
    }
    tell_meanings()
}

# Prints what an imported name means in each file, if the name alone does not say it: if it has
# different meanings in different files, if it stands for an item of another name, or if it is that
# of a module. So no import can change what a clause means without changing a line.
function tell_meanings(    key, parts, item) {
    for (key in item_of) {
        split(key, parts, SUBSEP)
        if (is_told(parts[1], parts[2])) means(parts[2], origin(item_of[key]))
    }
    for (key in item_of) {
        split(key, parts, SUBSEP)
        split(item_of[key], item, SUBSEP)
        if (meanings[parts[2]] > 1 || item[2] != parts[2])
            tell_meaning(parts[1], parts[2], item_of[key])
    }
    for (key in module_named) {
        split(key, parts, SUBSEP)
        tell_meaning(parts[1], parts[2], module_named[key])
    }
}

function means(name, what) {
    if ((name, what) in is_meant) return
    is_meant[name, what]
    meanings[name]++
}

# Whether a file uses an imported name in what is printed: a .rt file if a clause cites the name, and
# a module of definitions if one of its definitions is printed.
function is_told(path, name) {
    return path ~ /\.rt$/ ? name in is_cited : path in is_used
}

function tell_meaning(path, name, what) {
    if (!is_told(path, name)) return
    sub(SUBSEP, ".", what)
    print path "\t" name " is " what | "sort"
}
