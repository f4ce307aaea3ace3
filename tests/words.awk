# Compares the words of docs/PROVED.md with the clauses beside them, for tests/clauses.sh:
#   awk -f words.awk tests/clauses.txt docs/PROVED.md
# A row's text is the signatures and clauses that its last cell names, with all definitions that
# these cite. It prints a line if
# - the words have a name in code that is not in the row's text, or a hexadecimal number that is not
#   in its clauses or in the definitions near them;
# - a clause names an error, or `None`, that the words do not name;
# - the words say that a case is returned "exactly when" something holds, and no clause says both
#   directions;
# - the words name some of several statuses or cases, and not all that the clauses list;
# - the words say that an error becomes a case, and no clause gives that case.
# Nothing else of the words is compared.

# Reads clauses.txt, and keeps each line by its crate and the name of its item or definition.
FNR == NR && /^#/ { next }
FNR == NR {
    crate = $1
    item = $2
    sub(/:$/, "", item)
    text = substr($0, length($1 " " $2) + 2)
    if (item ~ /\.antt$/) define()
    else keep()
    next
}

/^## / {
    crate = $2
    gsub(/`/, "", crate)
}
/^\|/ && !/^\|---/ && !/\| clause \|$/ { row() }

# Keeps a line of an item by its clause. A line without one is a signature or the head of a type.
function keep(clause) {
    clause = ""
    if (text ~ /^ensures \{/) clause = "-"
    else if (text ~ /^ensures /) clause = word(text, 2)
    else if (match(text, /, ghost [a-z_]+ = /)) clause = word(substr(text, RSTART), 3)
    lines[crate, item, clause] = lines[crate, item, clause] "\n" text
    is_crate[crate]
    sub(/.*::/, "", item)
    if (text ~ /^pub (extern "C" )?fn /) {
        if (!(item in signature_of)) signature_of[item] = text
        signature_in[crate, item] = text
    }
    if (match(text, /^pub enum [^{]*\{/)) keep_cases(item, substr(text, RLENGTH + 1))
}

BEGIN { keep_cases("Option", "None") }

# Stores the cases of a type. The words have to name those of an error, and `None`.
function keep_cases(type, list, words, count, i) {
    gsub(/\([^()]*\)/, "", list)
    gsub(/[^A-Za-z0-9_]+/, " ", list)
    cases_in[type] = list
    count = split(list, words, " ")
    for (i = 1; i <= count && type ~ /^Option$|Fault$/; i++) is_fault[words[i]]
}

# The signature of a function: that of the row's crate, or that of another crate if it has none.
function told_signature(name) {
    return (crate, name) in signature_in ? signature_in[crate, name] : signature_of[name]
}

function word(line, number, words) {
    split(line, words, " ")
    return words[number]
}

# A definition's head is followed by its lines, which begin with two spaces.
function define(words, i) {
    if (text ~ / is Rattle\./) return
    if (text !~ /^ /) {
        split(text, words, " ")
        for (i = 1; words[i] ~ /^(abbrev|unfoldable|pub|data|record)$/;) i++
        name = words[i]
        crates_of[name] = crates_of[name] " " crate
    }
    body_of[crate, name] = body_of[crate, name] "\n" text
}

# Adds a piece to the row's text, with the definitions that it cites. A definition of the crate
# itself comes first. `near_text`, with which numbers are compared, gets only the signatures and
# clauses, the definitions that these cite, and those that these cite in turn: the definition of an
# encoding, which nearly all rows cite, has many numbers.
function add(piece, crate, depth, words, count, i, at) {
    row_text = row_text "\n" piece
    if (depth < 3) near_text = near_text "\n" piece
    gsub(/[^A-Za-z0-9_]+/, " ", piece)
    count = split(piece, words, " ")
    for (i = 1; i <= count; i++) {
        if (!(words[i] in crates_of)) continue
        at = crate
        if (!((at, words[i]) in body_of)) at = word(crates_of[words[i]], 1)
        if ((at, words[i]) in is_cited && is_cited[at, words[i]] <= depth) continue
        is_cited[at, words[i]] = depth
        add(body_of[at, words[i]], at, depth + 1)
    }
}

# Compares a row.
function row(cells, cell, place) {
    cells = split($0, cell, "|")
    row_text = near_text = named = cases = ""
    split("", is_cited)
    read_names(cell[cells - 1])
    words = cell[2]
    place = crate ", \"" substr(words, 2, 40) "..\": "
    compare_code(place)
    compare_numbers(place)
    compare_cases(place)
    compare_both_ways(place)
    compare_statuses(place)
    compare_listed(place)
    compare_becomes(place)
}

# Reads a row's last cell. `named` gets the clauses, `row_text` all that the cell names, and `cases`
# the cases of the types.
function read_names(names, entry, entries, owner, owners, clause, clauses, at, i, j, k) {
    gsub(/[` ]/, "", names)
    entries = split(names, entry, ";")
    for (i = 1; i <= entries; i++) {
        at = match(entry[i], /[^:]:[^:]/)
        owners = split(at ? substr(entry[i], 1, at) : entry[i], owner, ",")
        clauses = split(at ? substr(entry[i], at + 2) : "-", clause, ",")
        for (j = 1; j <= owners; j++) {
            add(lines[crate, owner[j], ""], crate)
            cases = cases " " cases_of(lines[crate, owner[j], ""])
            for (k = 1; k <= clauses; k++) {
                named = named lines[crate, owner[j], clause[k]]
                add(lines[crate, owner[j], clause[k]], crate)
            }
        }
    }
}

# Whether the row's text has a word.
function has(name) {
    return row_text ~ ("[^A-Za-z0-9_]" name "[^A-Za-z0-9_]")
}

# Checks the names in code. The name of a case may also be in a type that is returned by a function
# that the row or its words name.
function compare_code(place, rest, code) {
    rest = words
    while (match(rest, /`[^`]+`/)) {
        code = substr(rest, RSTART + 1, RLENGTH - 2)
        rest = substr(rest, RSTART + RLENGTH)
        if (code in signature_of) cases = cases " " cases_of(told_signature(code))
        if (!is_right(code)) print place "no clause has `" code "`"
    }
}

# Whether a name is a function's, the end of a function's, a crate's, or in the row's text. Rust's
# types and `{}` are not compared.
function is_right(code, name) {
    if (code ~ /^[&{]/ || code in signature_of || code in is_crate) return 1
    if (code ~ /^_/) {
        for (name in signature_of) if (index(name, code) > 1) return 1
        return 0
    }
    if (code ~ /^(usize::MAX|SIZE_MAX)$/) return has("(2 \\^ 64|usize\\.MAX)")
    if (code == "cmp") return has("slice_cmp")
    return has(code) || has(camel(code)) || index(cases, " " code " ") > 0
}

# The case that stands for a word of a command: JavaWrite for java-write.
function camel(code, parts, part, i, name) {
    parts = split(code, part, "-")
    for (i = 1; i <= parts; i++) name = name toupper(substr(part[i], 1, 1)) substr(part[i], 2)
    return name
}

# The cases of the types that a signature names.
function cases_of(signature, words, count, i, all) {
    gsub(/[^A-Za-z0-9_]+/, " ", signature)
    count = split(signature, words, " ")
    for (i = 1; i <= count; i++) all = all " " cases_in[words[i]] " "
    return all
}

# Checks the hexadecimal numbers: those of a character, 00, and those with a letter or before
# "(hexadecimal)".
function compare_numbers(place, rest, number) {
    rest = words
    gsub(/`[^`]*`|UTF-(8|16)|[CM][A-Z]+-8/, "", rest)
    while (match(rest, /(U\+)?[0-9A-F][0-9A-F]+/)) {
        number = substr(rest, RSTART, RLENGTH)
        rest = substr(rest, RSTART + RLENGTH)
        if (!sub(/^U\+/, "", number) && rest !~ /^ \(hexadecimal\)/ && number != "00" &&
            number !~ /[0-9][A-F]|[A-F][0-9]/) continue
        if (near_text ~ ("[^A-Za-z0-9_]" (number ~ /^0+$/ ? "0" : "0x" number) "[^A-Za-z0-9_]")) continue
        print place "no clause has " number
    }
}

# Checks the errors that the row's clauses name after On, If or a type, and `None`. `Memory` is not
# compared, since some rows call it out of memory, and others leave it out.
function compare_cases(place, rest, name) {
    rest = named
    while (match(rest, /(On|If)[A-Z][a-z]+|Fault\.[A-Z][A-Za-z]+/)) {
        name = substr(rest, RSTART, RLENGTH)
        rest = substr(rest, RSTART + RLENGTH)
        sub(/^(On|If|Fault\.)/, "", name)
        if (!(name in is_fault) || name == "Memory" || tolower(words) ~ tolower(name)) continue
        print place "the words do not name " name
    }
}

# Checks each case that is returned "exactly when" something holds: an equivalence has it on its
# left, or both cases of an `Option` have clauses, or a clause allows no other error than out of
# memory.
function compare_both_ways(place, rest, name) {
    rest = words
    while (match(rest, /`[A-Za-z_]+`( [a-z]+)? exactly (where|when|if|for)/)) {
        name = substr(rest, RSTART + 1)
        sub(/`.*/, "", name)
        rest = substr(rest, RSTART + RLENGTH)
        if (row_text ~ (name "[^\n→]* ↔")) continue
        if (name == "None" && named ~ /IfNone/ && named ~ /IfSome/) continue
        if (named ~ /IsOkUnless/) continue
        print place "no clause says both ways where `" name "` comes"
    }
}

# Checks the statuses of the exports for C. If the words name several, they have to name each for
# which the row's text has an equivalence. A status may have a row of its own instead.
function compare_statuses(place, rest, name, count) {
    rest = words
    while (match(rest, /`[A-Z][A-Z_0-9]+`/)) {
        name = substr(rest, RSTART + 1, RLENGTH - 2)
        rest = substr(rest, RSTART + RLENGTH)
        if (name != "SIZE_MAX") count++
    }
    if (count == 1) has_row[crate, name]
    rest = row_text
    while (count > 1 && match(rest, /status ≡ [A-Z][A-Z_0-9]+ ↔/)) {
        name = substr(rest, RSTART, RLENGTH)
        rest = substr(rest, RSTART + RLENGTH)
        gsub(/status ≡ | ↔/, "", name)
        if (!index(words, "`" name "`")) unnamed[crate, name] = place "the words do not name " name
    }
}

# Checks a list of cases. If a clause cites a definition that holds for all cases of a type except
# some, and the words name a case for which it holds, they have to name all of these.
function compare_listed(place, rest, name, head, type, body, list, count, i, is_listed, lacks, is_seen) {
    rest = named
    while (match(rest, /[A-Z][A-Za-z]+/)) {
        name = substr(rest, RSTART, RLENGTH)
        rest = substr(rest, RSTART + RLENGTH)
        body = body_of[crate, name]
        if (name in is_seen || body !~ (name " other = ⊤")) continue
        is_seen[name]
        type = body
        sub(/[^:]*: /, "", type)
        sub(/ .*/, "", type)
        count = split(cases_in[type], list, " ")
        is_listed = 0
        lacks = ""
        for (i = 1; i <= count; i++) {
            if (body ~ (name " " list[i] " = ⊥")) continue
            if (index(words, "`" list[i] "`")) is_listed = 1
            else lacks = lacks " " list[i]
        }
        if (is_listed && lacks != "") print place "the words do not name" lacks
    }
}

# Checks what an error becomes by `from`.
function compare_becomes(place, rest, name) {
    rest = words
    while (match(rest, /becomes `[A-Za-z]+`/)) {
        name = substr(rest, RSTART + 9, RLENGTH - 10)
        rest = substr(rest, RSTART + RLENGTH)
        if (named !~ ("≡ ([a-z_]+\\.)?" name "[^A-Za-z]")) print place "no clause gives `" name "`"
    }
}

END {
    for (name in unnamed) if (!(name in has_row)) print unnamed[name]
}
