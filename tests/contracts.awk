# Prints the public items of a Rattle file, one a line: the crate, the name, the clause and the
# whole text on one line, with tabs between them:
#   awk -v crate=CRATE -v prefix=PREFIX -f contracts.awk FILE
# PREFIX is printed before each name of a function or another item: the path of the file's module in
# the crate, such as `mutf8::`, or nothing. tests/clauses.sh runs this and compares the lines.
# A public function has a line with the clause `!fn`, and one for each clause of its contract: the
# clause's name, or a dash if it has none. A requirement has the clause `!requires`, and a function
# without `ensures` also has `!none`. An implementation of a trait has its ghost members as
# clauses, and `!none` if it has methods but no such member. Any other public item has the clause
# `!item`, and text that this program can't read has `!unread`.

# The code of a line, without comments. In quoted text, braces, semicolons and spaces are marked, so
# that they are not taken for code.
{
    line = $0
    code = ""
    while (line != "") {
        if (in_comment) {
            at = index(line, "*/")
            if (at == 0) break
            line = substr(line, at + 2)
            in_comment = 0
        } else if (in_string) {
            if (line ~ /^"/) in_string = 0
            quote(line ~ /^\\/ ? 2 : 1)
        } else if (match(line, /["']|\/\/|\/\*/)) {
            code = code substr(line, 1, RSTART - 1)
            line = substr(line, RSTART)
            if (line ~ /^\/\//) break
            if (line ~ /^\/\*/) {
                in_comment = 1
                line = substr(line, 3)
            } else if (line ~ /^"/) {
                in_string = 1
                quote(1)
            } else quote(match(line, /^'(\\[^']*|[^'\\])'/) ? RLENGTH : 1)
        } else {
            code = code line
            line = ""
        }
    }
    text = text " " code
}

END {
    gsub(/[ \t]+/, " ", text)
    mark_lengths()
    while (1) {
        sub(/^ +/, "", text)
        if (text == "") break
        item()
    }
    for (i = 1; i <= lines; i++) if (!(type_of[i] in is_private)) print line_of[i]
}

# Moves `count` characters from the line to the code, and marks them.
function quote(count) {
    code = code marked(substr(line, 1, count))
    line = substr(line, count + 1)
}

function marked(part) {
    gsub(/{/, "\001", part)
    gsub(/}/, "\002", part)
    gsub(/;/, "\003", part)
    gsub(/ /, "\004", part)
    return part
}

function shown(part) {
    gsub(/\001/, "{", part)
    gsub(/\002/, "}", part)
    gsub(/\003/, ";", part)
    gsub(/\004/, " ", part)
    sub(/^ +/, "", part)
    sub(/ +$/, "", part)
    return part
}

# Marks the semicolons in brackets, which come before the length of an array.
function mark_lengths(    rest, level, sign) {
    rest = text
    text = ""
    while (match(rest, /[][;]/)) {
        sign = substr(rest, RSTART, 1)
        level += sign == "[" ? 1 : sign == "]" ? -1 : 0
        text = text substr(rest, 1, RSTART - 1) (sign == ";" && level > 0 ? "\003" : sign)
        rest = substr(rest, RSTART + 1)
    }
    text = text rest
}

# Keeps a line. It is printed at the end, unless its type is not public.
function tell(name, clause, told) {
    lines++
    line_of[lines] = crate "\t" name "\t" clause "\t" shown(told)
    type_of[lines] = type
}

function unread() {
    tell("-", "!unread", substr(text, 1, 60))
    text = ""
}

# Removes `count` characters from the start of the text, and returns them.
function take(count,    taken) {
    taken = substr(text, 1, count)
    text = substr(text, count + 1)
    return taken
}

# The position of the first match, or 0.
function first_of(pattern) {
    return match(text, pattern) ? RSTART : 0
}

# The position where the text's first pair of braces or brackets closes.
function end_of(opening, closing,    rest, level, place) {
    rest = text
    while (match(rest, "[" closing opening "]")) {
        place += RSTART
        level += substr(rest, RSTART, 1) == closing ? -1 : 1
        if (level == 0) return place
        rest = substr(rest, RSTART + 1)
    }
    return length(text)
}

# Removes the next item from the text. The items inside an `impl` or a `mod` come next.
function item(    taken) {
    if (text ~ /^}/) {
        close_context()
        take(1)
    } else if (text ~ /^#!?\[/) {
        taken = take(end_of("[", "]"))
        if (taken ~ /cfg\(test\)/) is_test = 1
    } else if (text ~ /^(pub(\([a-z: ]*\))? )?((const|async|default|unsafe|extern "[^"]*") )*fn /)
        function_item()
    else if (text ~ /^(unsafe )?impl[ <]/)
        open_impl()
    else if (text ~ /^(pub(\([a-z: ]*\))? )?mod [A-Za-z0-9_]+ *[{]/)
        open_module()
    else if (text ~ /^macro_rules! [a-z_]+ *[{]/)
        # A macro has no contract, and other crates can't see it.
        take(end_of("{", "}"))
    else if (text ~ /^ghost [a-z_]+ *=/)
        ghost_member()
    else if (text ~ /^(pub|ghost|mod|use|type|const|static|extern|struct|enum|trait)[ (]/)
        other_item()
    else
        unread()
}

# An item without a contract: a type, a constant, a module, an import.
function other_item(    is_public, at, brace, taken) {
    is_public = text ~ /^pub /
    at = first_of(";")
    brace = first_of("{")
    if (brace == 0 || text ~ /^(pub |pub\([a-z: ]*\) |ghost )?use / || (at > 0 && at < brace)) {
        if (at == 0) {
            unread()
            return
        }
        taken = take(at)
    } else {
        taken = take(end_of("{", "}"))
        if (text ~ /^ *;/) taken = taken take(first_of(";"))
    }
    if (is_public && !is_hidden && !is_test) tell(named(name_in(taken)), "!item", taken)
    else if (taken ~ /^(pub\([a-z: ]*\) )?(struct|enum|union) /) is_private[name_in(taken)]
    is_test = 0
}

# The name that a public item defines, or `use`.
function name_in(taken) {
    sub(/^pub(\([a-z: ]*\))? /, "", taken)
    if (taken ~ /^use /) return "use"
    sub(/^[a-z_!]+ /, "", taken)
    sub(/[^A-Za-z0-9_].*/, "", taken)
    return taken
}

# A name after PREFIX, the path of the modules in this file, and the type of the `impl`.
function named(name) {
    return prefix inner (type == "" ? "" : type "::") name
}

function open_module(    taken) {
    taken = take(first_of("{"))
    depth++
    saved_inner[depth] = inner
    saved_hidden[depth] = is_hidden
    is_module[depth] = 1
    if (taken !~ /^pub / || is_test) is_hidden = 1
    is_test = 0
    sub(/.*mod /, "", taken)
    sub(/ *[{]/, "", taken)
    inner = inner taken "::"
}

function open_impl() {
    header = take(first_of("{") - 1)
    take(1)
    sub(/ +$/, "", header)
    type = header
    is_trait = type ~ / for /
    if (is_trait) sub(/.* for /, "", type)
    else {
        sub(/^(unsafe )?impl */, "", type)
        sub(/^<[^>]*> */, "", type)
    }
    sub(/[< {].*/, "", type)
    methods = members = 0
    depth++
    is_module[depth] = 0
    is_test = 0
}

function close_context() {
    if (depth == 0) return
    if (is_module[depth]) {
        inner = saved_inner[depth]
        is_hidden = saved_hidden[depth]
    } else {
        if (is_trait && methods > 0 && members == 0 && !is_hidden) tell(type, "!none", header)
        type = ""
        is_trait = 0
    }
    depth--
}

# A ghost member by which an implementation says what it promises. `laws` is a proof, and `class` a
# set of bytes, so they are no promises.
function ghost_member(    name, taken) {
    name = text
    sub(/^ghost /, "", name)
    sub(/[ =].*/, "", name)
    taken = take(end_of("{", "}"))
    if (text ~ /^ *;/) take(first_of(";"))
    if (!is_trait || name ~ /^(laws|class)$/) return
    members++
    if (!is_hidden) tell(type, name, header ", " taken)
}

function function_item(    at, head, is_public, name, clauses) {
    at = first_of(" (ensures|requires)[ {]|[{;]")
    if (at == 0) {
        unread()
        return
    }
    head = take(at - 1)
    is_public = head ~ /^pub / && !is_hidden && !is_test
    is_test = 0
    if (is_trait) methods++
    name = head
    sub(/^.*fn /, "", name)
    sub(/[^A-Za-z0-9_].*/, "", name)
    name = named(name)
    gsub(/\( /, "(", head)
    gsub(/, \)/, ")", head)
    if (is_public) tell(name, "!fn", head)
    while (text !~ /^ *[{;]/) clauses += contract_clause(name, is_public)
    if (is_public && !clauses) tell(name, "!none", head)
    sub(/^ +/, "", text)
    take(text ~ /^;/ ? 1 : end_of("{", "}"))
}

# Removes a clause from the text. Returns 1 if it is a promise, and 0 if it is a requirement.
function contract_clause(name, is_public,    word, clause, taken) {
    sub(/^ +/, "", text)
    clause = word = substr(text, 1, first_of("{") - 1)
    sub(/ .*/, "", word)
    sub(/^[a-z]+ */, "", clause)
    sub(/ +$/, "", clause)
    if (word !~ /^(ensures|requires)$/) {
        unread()
        text = ";"
        return 0
    }
    if (word == "requires") clause = "!requires"
    else if (clause == "") clause = "-"
    taken = take(end_of("{", "}"))
    if (is_public) tell(name, clause, taken)
    return word == "ensures"
}
