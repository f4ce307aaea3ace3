# Makes the man page of the calls from the header's comments, for release/dist.sh:
#   awk -v version=VERSION -v day=DAY -f cesu8.3.awk cesu8.h

# The lines before the enum, the definition of CESU8_SIZE and the lines after the calls are left
# out. The patterns are the first words at which the parts of the header begin.
/^enum cesu8_status/ { in_types = 1 }
/^\/\/ Every input and every buffer/ { in_types = 0; in_words = 1 }
/^\/\/ A number as a size_t/ { in_words = 0 }
/^\/\/ Lengths of buffers/ { in_lengths = 1 }
/^\/\/ Whether the encoding/ { in_lengths = 0; in_calls = 1 }
/^#ifdef __cplusplus/ { in_calls = 0 }

in_types && !/^(typedef|\/\/ The library returns)/ { types = types shown($0) "\n" }
in_words { words = words paragraph($0) }
in_lengths && /^\/\// { lengths = lengths paragraph($0) }
in_lengths && /^#define/ {
    sub(/^#define /, "")
    sizes = sizes shown($0) "\n"
}
# A comment describes the calls after it.
in_calls && /^\/\// { said = said paragraph($0) }
in_calls && /^[A-Za-z ]/ {
    sub(/^CESU8_[A-Z_]* /, "")
    if (match($0, /cesu8_[a-z0-9_]*\(/)) names = names ", " substr($0, RSTART, RLENGTH - 1)
    calls = calls ".B \"" shown($0) "\"\n"
}
in_calls && /^$/ { end_calls() }

END {
    end_calls()
    print ".TH CESU8 3 " day " \"cesu8 " version "\" \"Library Functions Manual\""
    print ".nh\n.SH NAME\ncesu8" names " \\- CESU\\-8, Modified UTF\\-8 and strings of Java"
    print ".SH SYNOPSIS\n.nf\n.B #include <cesu8.h>\n.fi\n.PP\nLink with"
    print ".BR \"$(pkg\\-config \\-\\-cflags \\-\\-libs cesu8)\" ."
    printf ".SH DESCRIPTION\n%s", words
    printf ".SH TYPES\n.nf\n%s.fi\n", types
    printf ".SH CALLS\n%s", groups
    printf ".SH LENGTHS\n%s.PP\n.nf\n%s.fi\n", lengths, sizes
    print ".SH SEE ALSO\n.BR cesu8_cli (1),\n.BR cesu8conv (1)"
}

# Adds the calls that were read since the last blank line, with their description.
function end_calls() {
    if (calls != "") {
        groups = groups ".PP\n.nf\n" calls ".fi\n.RS\n" said ".RE\n"
        said = calls = ""
    }
}

# A line of a comment. An empty one separates two paragraphs.
function paragraph(line) {
    sub(/^\/\/ ?/, "", line)
    return line == "" ? ".PP\n" : shown(line) "\n"
}

# Escapes a text for roff.
function shown(text) {
    gsub(/\\/, "\\e", text)
    gsub(/-/, "\\-", text)
    return text
}
