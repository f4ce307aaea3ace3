# Adds up a profile of callgrind, for tests/costs.sh:
#   awk -v library=NAME -v driver=NAME -f costs.awk FILE
#
# It prints a line for each part of the file (each of callgrind's dumps is one), with two sums: the
# cost of the library's object, and the cost of allocations, copies and all other objects except the
# driver. An instruction counts 1, and a mispredicted branch 15 more. The events must be Ir Bc Bcm
# Bi Bim: Ir are instructions, Bcm and Bim mispredicted branches. No name or position may be
# shortened.
/^part: / { part = $2 }
/^events: / && $0 != "events: Ir Bc Bcm Bi Bim" {
    print "costs.awk: other events: " $0 >"/dev/stderr"
    exit is_wrong = 1
}
/^ob=/ { object = $0; sub(/.*[\/=]/, "", object) }
# The functions that allocate, free or copy, in whatever object they are.
/^fn=/ { is_request = /^fn=((rattle_(alloc|realloc|dealloc))|malloc|realloc|free|mem[a-z]*)$/ }
# The line after a call has the cost of the called function, which is counted at its own lines.
/^calls=/ { getline; next }
/^[0-9]/ && (object != driver || is_request) {
    is_own = object == library && !is_request
    sum[part, is_own] += $2 + 15 * ($4 + $6)
}
END { for (i = 1; i <= part && !is_wrong; i++) print sum[i, 1] + 0, sum[i, 0] + 0 }
