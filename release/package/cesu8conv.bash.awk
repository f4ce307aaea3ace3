# Makes the completion for bash from what `cesu8conv --help` prints: for each argument the words that it
# can be, and the options. release/dist.sh runs it. The completion goes by the position of a word:
# it offers the words of each argument, and only then options and names of files.

/^Arguments:/ { part = "arguments"; next }
/^Options:/ { part = "options"; next }
/^[^ ]/ { part = "" }

part == "arguments" && /^  [<[]/ { count++ }
part == "arguments" && /^ +- / {
    word = $2
    sub(/:$/, "", word)
    words[count] = words[count] (words[count] == "" ? "" : " ") word
}
part == "options" && match($0, /--[a-z-]+/) { options = options " " substr($0, RSTART, RLENGTH) }

END {
    if (words[1] == "" || words[2] == "" || options == "") {
        print "the help of cesu8conv has no words or options" | "cat 1>&2"
        exit 1
    }
    print "_cesu8conv() {"
    print "    local words='' word=${COMP_WORDS[COMP_CWORD]}"
    print "    case $COMP_CWORD in"
    for (i = 1; i in words && words[i] != ""; i++) print "        " i ") words='" words[i] "' ;;"
    print "        *) words='" substr(options, 2) "' ;;"
    print "    esac"
    print "    if ((COMP_CWORD >= " i ")) && [[ $word != -* ]]; then"
    print "        mapfile -t COMPREPLY < <(compgen -f -- \"$word\")"
    print "    else"
    print "        mapfile -t COMPREPLY < <(compgen -W \"$words\" -- \"$word\")"
    print "    fi"
    print "}"
    print "complete -o filenames -F _cesu8conv cesu8conv"
}
