# Divides the edits of a crate into rounds: awk -v to=FOLDER -f rounds.awk EDIT.., in the crate's folder.
#
# It writes to FOLDER, with tabs between:
#   NAME.lines   each line that an edit changes: FILE LINE TEXT
#   NAME.owners  each function that it changes: NAME FILE FIRST LAST FOLDER, its lines and the folder of its
#                proof, or NAME FILE 0 0 any if it changes something else; and SHOWN, `shown` if the edit has
#                a line `shows:` (for shows.sh)
#   rounds       the names of each round
#   bad          each edit that can't be applied: NAME WHY
#
# No two edits of a round change the same function. A function's proof cites the contracts of other
# functions and does not see their bodies, so an edit makes only goals of its own function false. An
# edit for which that is not true has its own round: one of a table, a contract, a spec, a proof, a
# `const fn`, or a function under `#[cycle(..)]`, whose proof sees the bodies of the others of the
# cycle.
#
# While a function is not proved, `rt` does not try the goals of its callers. So an edit is put in a round in
# which no function calls another one, if there is such a round. The names alone do not show that for sure, so
# no new round is made for it.
#
# An edit is applied as `rt must-fail` applies it: each old text has to be in its file exactly once,
# after the preceding pairs were applied. It changes lines in place, and adds none.

BEGIN {
    for (i = 1; i < ARGC; i++) {
        name = ARGV[i]
        sub(/.*\//, "", name)
        why = apply(ARGV[i])
        if (why == "") why = find_owners()
        if (why != "") print name "\t" why > (to "/bad")
        else lay()
    }
    for (i = 1; i <= rounds; i++) print members[i] > (to "/rounds")
}

# Applies an edit's pairs to `now`, the lines of its files, and returns why it can't.
function apply(edit,    line, path, old, pairs, why) {
    delete now
    delete paths
    shown = ""
    while (why == "" && (getline line < edit) > 0) {
        if (line ~ /^file: /) {
            path = substr(line, 7)
            gsub(/^ +| +$/, "", path)
            why = open(path)
        } else if (line ~ /^shows: /) {
            shown = "shown"
        } else if (line ~ /^old: /) {
            old = substr(line, 6)
        } else if (line ~ /^new:/) {
            why = path == "" || old == "" ? "a line 'new:' without 'file:' or 'old:' before it" : \
                replace(path, old, substr(line, line ~ /^new: / ? 6 : 5))
            old = ""
            pairs++
        }
    }
    close(edit)
    return why == "" && !pairs ? "it has no pair 'old:' and 'new:'" : why
}

# Reads a file of the crate into `was`, once for all edits, and copies it to `now`, once for each
# edit. Returns why it can't.
function open(path,    line) {
    if (path !~ /^(src|specs|proofs)\// || ("/" path "/") ~ /\/\.*\//)
        return "'file:' names no file below src/, specs/ or proofs/"
    if (!(path in size)) {
        while ((getline line < path) > 0) was[path, ++size[path]] = line
        close(path)
        if (!size[path]) return "there is no file " path
        find_functions(path)
    }
    if (!(path in paths))
        for (k = 1; k <= size[path]; k++) now[path, k] = was[path, k]
    paths[path]
    return ""
}

# Replaces a text that is in a file once, and returns why it can't.
function replace(path, old, new,    k, at, rest, found, place) {
    for (k = 1; k <= size[path]; k++)
        for (rest = now[path, k]; at = index(rest, old); rest = substr(rest, at + length(old))) {
            found++
            place = k
        }
    if (found != 1) return "an old text is in " path " " found + 0 " times, and not once"
    at = index(now[path, place], old)
    now[path, place] = substr(now[path, place], 1, at - 1) new substr(now[path, place], at + length(old))
    return ""
}

# Finds the functions of a file: their lines, of which attributes are the first, the line after which the
# body begins, and the folder that their proof has. What stands within a function counts as part of it.
# Other proofs see the body of a `const fn` and of a function under `#[cycle(..)]` (`is_open`). So
# no line counts as part of such a body, and an edit of one gets a round of its own.
function find_functions(path,    k, line, block, indent, first, name_line, body, name, folder, is_open, at) {
    folder = path
    sub(/^src\//, "", folder)
    sub(/\.rt$/, "", folder)
    folder = folder ~ /^(lib|main)$/ ? "proofs" : "proofs/" folder
    for (k = 1; k <= size[path]; k++) {
        line = was[path, k]
        if (!first && line ~ /^impl[ <]/) block = block_name(path, k) "/"
        if (!first && line == "}") block = ""
        if (!first && match(line, /^ *(pub(\([a-z]+\))? )?(const )?(extern "C" )?fn [a-z0-9_]+/)) {
            first = k
            while (first > 1 && was[path, first - 1] !~ /^$|[{};]$/) first--
            body = 0
            name_line = k
            name = indent = substr(line, 1, RLENGTH)
            is_open = name ~ /const fn /
            for (at = first; at < k; at++) if (was[path, at] ~ /#\[cycle/) is_open = 1
            sub(/.* /, "", name)
            sub(/[^ ].*/, "", indent)
        }
        if (!first) continue
        if (!body && line ~ ("^" indent "([^ ].*)?\\{$")) body = k
        # A function on one line, or without a body.
        if (!body && (line ~ /;$/ || name_line == k && line ~ /}$/)) first = 0
        if (body && line == indent "}") {
            functions[path]++
            name_of[path, first] = name
            for (at = body + 1; at < k; at++) text_of[path, first] = text_of[path, first] was[path, at] "\n"
            first_of[path, functions[path]] = first
            body_of[path, functions[path]] = is_open ? k : body
            last_of[path, functions[path]] = k
            folder_of[path, functions[path]] = folder "/" block name
            first = 0
        }
    }
}

# The name of an impl in the paths of proofs: that of its type, and that of its trait.
function block_name(path, k,    head, at, depth, sign) {
    while (k <= size[path]) {
        head = head " " was[path, k]
        if (was[path, k++] ~ /\{\}?$/) break
    }
    sub(/^ *impl */, "", head)
    gsub(/->/, "", head)
    if (head ~ /^</) {
        do {
            sign = substr(head, ++at, 1)
            depth += (sign == "<") - (sign == ">")
        } while (depth && at < length(head))
        head = substr(head, at + 1)
    }
    sub(/ where .*| *\{.*/, "", head)
    at = index(head, " for ")
    return at ? word(substr(head, at + 5)) word(substr(head, 1, at - 1)) : word(head)
}

# The last name of a path, without what it is applied to.
function word(path) {
    sub(/<.*/, "", path)
    sub(/.*::/, "", path)
    gsub(/[^A-Za-z0-9_]/, "", path)
    return path
}

# Keeps in `owners` what the edit changes, and in `is_alone` whether it wants a round of its own. Returns
# what is wrong with it.
function find_owners(    path, k, at, changes) {
    delete owners
    is_alone = 0
    for (path in paths)
        for (k = 1; k <= size[path]; k++) {
            if (now[path, k] == was[path, k]) continue
            changes++
            print path "\t" k "\t" now[path, k] > (to "/" name ".lines")
            at = owner(path, k)
            if (at) owners[path "\t" first_of[path, at] "\t" last_of[path, at] "\t" folder_of[path, at]]
            else owners[path "\t0\t0\tany"]
            if (!at) is_alone = 1
        }
    return changes ? "" : "it changes nothing"
}

# The function in whose body a line is, or 0.
function owner(path, k,    at) {
    for (at = 1; at <= functions[path]; at++)
        if (body_of[path, at] < k && k <= last_of[path, at]) return at
    return 0
}

# Puts the edit into a round that changes none of its functions, nor one whose proof has the same folder:
# into the first where no function calls another, or else into the first.
function lay(    it, round, parts) {
    round = is_alone ? rounds + 1 : free_round()
    if (round > rounds) rounds = round
    members[round] = members[round] (members[round] == "" ? "" : " ") name
    is_closed[round] = is_alone
    for (it in owners) {
        print name "\t" it "\t" shown > (to "/" name ".owners")
        split(it, parts, "\t")
        taken[round, parts[1], parts[2]]
        taken[round, parts[4]]
        changed[round] = changed[round] parts[1] SUBSEP parts[2] "\n"
    }
}

function free_round(    round, it, parts, fits, found) {
    for (round = 1; round <= rounds; round++) {
        fits = !is_closed[round]
        for (it in owners) {
            split(it, parts, "\t")
            if ((round, parts[1], parts[2]) in taken || (round, parts[4]) in taken) fits = 0
        }
        if (fits && !has_call(round)) return round
        if (fits && !found) found = round
    }
    return found ? found : round
}

# Whether a function of the edit calls one that the round changes, or is called by one.
function has_call(round,    it, parts, others, k) {
    for (it in owners) {
        split(it, parts, "\t")
        for (k = split(changed[round], others, "\n") - 1; k > 0; k--)
            if (calls(parts[1] SUBSEP parts[2], others[k]) || calls(others[k], parts[1] SUBSEP parts[2]))
                return 1
    }
    return 0
}

# Whether the text of one function has a call of the other's name.
function calls(one, other) {
    return text_of[one] ~ ("(^|[^a-z0-9_])" name_of[other] "(::<[^(]*>)?\\(")
}
