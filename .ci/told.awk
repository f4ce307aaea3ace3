# Says which edits of a round a check has rejected:
#   awk -v status=STATUS -f told.awk NAME.owners.. OUTPUT
# with the owners that rounds.awk has written, and what `rt check` has printed. For each edit it prints
# NAME, `refused` or `not`, and WHY, with tabs between.
#
# An edit is rejected if a goal of a function that it changes is false. The check reports a goal at a line of
# the function, or in its file of answers or invariants. For an edit that changes something else than the body
# of a function any goal counts, since its round changes nothing else.
#
# A goal counts if the check shows values that break it, or says that it is not proved and names no limit
# of its search. One at which a search met a limit may be true, and so may one that a proof by hand does not
# fit: its form changes with the code. Such a goal counts only for an edit with a line `shows:`, by which
# shows.sh shows that the edit is a mistake.
#
# A goal does not count if its message says that a name or a field is missing: then a proof names
# something that the edit has removed, and this does not show that the edit is a mistake.

FNR == 1 { FS = FILENAME ~ /\.owners$/ ? "\t" : " "; $0 = $0 }

FILENAME ~ /\.owners$/ {
    owners++
    name[owners] = $1
    file[owners] = $2
    first[owners] = $3
    last[owners] = $4
    folder[owners] = $5
    is_shown[owners] = $6 != ""
    is_changed[$2]
    next
}

# A message goes on in lines that begin with two spaces.
/^(note: )?(\.\/)?[a-z]+\/[^ :]+:[0-9]+:[0-9]+: / {
    judge()
    begin = text = $0
    next
}

begin != "" && /^  / {
    text = text $0
    next
}

{ judge() }

# The last line, of a whole check or of some functions alone.
/^logic=not-proved|^only=[0-9]+ proved=/ { has_verdict = 1 }

END {
    judge()
    if (status == 0) all = "what was checked is still proved"
    else if (unread != "") all = "the text can't be read: " unread
    else if (status != 1 || !has_verdict) all = "the check ended with status " status ", and no verdict"
    for (i = 1; i <= owners; i++) {
        if (all == "" && (i in goal)) refused[name[i]] = goal[i]
        else if (i in vanished) only_names[name[i]] = vanished[i]
        else if (i in vague) only_vague[name[i]] = vague[i]
    }
    for (i = 1; i <= owners; i++) {
        it = name[i]
        if (it in is_told) continue
        is_told[it]
        if (it in refused) print it "\trefused\t" refused[it]
        else if (all != "") print it "\tnot\t" all
        else if (it in only_names) print it "\tnot\tonly a name is missing: " only_names[it]
        else if (it in only_vague) print it "\tnot\tnothing was shown: " only_vague[it]
        else print it "\tnot\tno goal of what it changes is told to be false"
    }
}

# Stores for which edit's function a message reports a goal, or that it reports code that cannot be read.
function judge(    path, line, rest, i) {
    path = begin
    begin = ""
    if (path !~ /^note: |^[^ ]+ error: /) return
    sub(/^note: /, "", path)
    sub(/^\.\//, "", path)
    line = path
    sub(/:.*/, "", path)
    sub(/^[^:]*:/, "", line)
    sub(/:.*/, "", line)
    if (is_unread(path, text)) unread = unread == "" ? short(text) : unread
    for (i = 1; i <= owners; i++)
        if (is_of(i, path, line + 0)) {
            if (text ~ /has no field|is not in scope|has no `|was not admitted/) vanished[i] = short(text)
            else if (!tells_goal(text)) continue
            else if (!is_shown[i] && (tells_types(text) || tells_limit(text))) vague[i] = short(text)
            else if (!(i in goal)) goal[i] = short(text)
        }
}

# Whether a goal at this place is one of what the edit changes.
function is_of(i, path, line) {
    if (folder[i] == "any") return 1
    if (path == file[i]) return first[i] <= line && line <= last[i]
    return path == folder[i] "/Answers.antt" || path == folder[i] "/Invariants.antt"
}

# The beginning of a message: its place and the name of its goal, which can be long, and 60 bytes more.
function beginning(text) {
    match(text, /^(note: )?[^ ]+ (error: `[^`]*`: )?/)
    return substr(text, 1, RLENGTH + 60)
}

# Whether a message begins as those that report a goal that is not proved.
function tells_goal(text) {
    return beginning(text) ~ /it is not proved that|`[a-z]+`:? (the goal|(found )?no proof|stopped)/ || tells_types(text)
}

# Whether a message says that the search for a proof met a limit, and has no values that break the goal.
# `omega` and `grind` have such values if they say that it does not follow.
function tells_limit(text) {
    if (text ~ /at which this goal is false|`(omega|grind)`: .*does not follow|Every way was tried/) return 0
    return text ~ /at one of its limits|Not every way was tried|was found\. It stopped|may (hold|not break the goal)/
}

# Whether a message says that a proof by hand does not fit its goal: its type differs, or the goal has nothing
# that it could rewrite.
function tells_types(text) {
    return beginning(text) ~ /the two (types|sides)|: expected type|`rw`: no occurrence/
}

# Whether a message says that code, a spec or an edited file cannot be read. A message on a goal begins with
# the name of the goal.
function is_unread(path, text) {
    if (text !~ /^[^ ]+ error: / || !(path in is_changed) && path !~ /^(src|specs)\//) return 0
    sub(/^[^ ]+ error: /, "", text)
    if (!sub(/^`[^`]*`: /, "", text)) return 1
    gsub(/`[^`]*`/, "", text)
    return text ~ /is not in scope|has no field|is no name|operand is missing|expected the end|cannot continue/
}

function short(text) {
    sub(/^\.\//, "", text)
    return substr(text, 1, 160)
}
