# How the gate measures its own time. .ci/run sources this file, and first sets `scratch`, the folder in
# which the times are stored.
# shellcheck shell=bash disable=SC2154

# Stores every five seconds, until it is killed, how much processor time each check of `rt ci` has
# taken, in lines PROCESS TICKS PART: `note_checks TREE ROOM`. TREE is the folder in which `rt ci`
# runs, and ROOM the one in which it makes copies of some crates. The time of a check after the last
# such line is not counted, nor a process that takes less than half a second.
note_checks() {
    local process ticks hertz
    local -A part=()
    hertz=$(getconf CLK_TCK)
    while sleep 5; do
        while read -r process ticks; do
            [[ -n ${part[$process]-} ]] || part[$process]=$(part_of "${process%.*}" "$1" "$2")
            [[ ${part[$process]} == none ]] || echo "$process $ticks ${part[$process]}"
        done < <(list_processes $((hertz / 2))) >>"$scratch/checks"
    done
}

# Prints the processes that have taken at least so many ticks: PID.START TICKS. The system reuses numbers, so
# the time at which a process started is part of its name here: `list_processes LEAST`.
list_processes() {
    # A process may end before it is read.
    cat /proc/[0-9]*/stat 2>/dev/null | awk -v least="$1" '
        {
            pid = $1
            # The name of the program is in brackets, and may have spaces.
            sub(/^.*\) /, "")
            if ($12 + $13 >= least) print pid "." $20, $12 + $13
        }
    '
}

# Prints for which crate a process of `rt ci` works, and whether it proves or tests that crate.
# Prints `none` for any other process: `part_of PID TREE ROOM`.
part_of() {
    local at words
    {
        at=$(readlink "/proc/$1/cwd")
        words=$(tr '\0' ' ' <"/proc/$1/cmdline")
    } 2>/dev/null
    case $at/ in
        "$2"/crates/* | "$3"/rt-copy*/crates/*)
            at=${at##*/crates/}
            if [[ $words == *' --test '* ]]; then
                echo "${at%%/*}: tests"
            else
                echo "${at%%/*}: proof"
            fi
            ;;
        *) echo none ;;
    esac
}

# Keeps in `seconds` the processor time of children that `times` has written to a file, and in `user` and
# `system` its parts: `read_seconds FILE`.
read_seconds() {
    local minutes
    {
        read -r _
        read -r user system
    } <"$1"
    minutes=${user%m*} user=${user#*m} user=${user%.*}
    user=$((minutes * 60 + user))
    minutes=${system%m*} system=${system#*m} system=${system%.*}
    system=$((minutes * 60 + system))
    seconds=$((user + system))
}

# Notes the processor time of this shell's children as that of a part: `note_seconds NAME`.
note_seconds() {
    times >"$scratch/part.$BASHPID"
    read_seconds "$scratch/part.$BASHPID"
    echo "$seconds $1" >>"$scratch/script_seconds"
}

# Prints how many ticks the processors have had since this machine was started, and how many of them
# other virtual machines took (steal time).
processor_ticks() {
    awk '/^cpu / { for (i = 2; i <= 9; i++) all += $i; print all, $9 }' /proc/stat
}

# Stores the ticks so far, from which `show_account` counts, and empties the files of times.
begin_account() {
    read -r first_ticks first_stolen < <(processor_ticks)
    : >"$scratch/checks"
    : >"$scratch/script_seconds"
}

# Prints the minutes of processor time by part, and then of all.
show_account() {
    local ticks stolen
    times >"$scratch/times"
    read_seconds "$scratch/times"
    read -r ticks stolen < <(processor_ticks)
    echo '== processor minutes by part'
    {
        awk -v hertz="$(getconf CLK_TCK)" '
            { process = $1; spent[process] = $2; sub(/^[^ ]+ [0-9]+ /, ""); part[process] = $0 }
            END {
                for (process in part) sum[part[process]] += spent[process]
                for (it in sum) printf "%6.1f  %s\n", sum[it] / hertz / 60, it
            }
        ' "$scratch/checks"
        awk '{ spent = $1; sub(/^[0-9]+ /, ""); printf "%6.1f  %s\n", spent / 60, $0 }' "$scratch/script_seconds"
    } | sort -rn
    awk -v by_user="$user" -v by_system="$system" -v wall="$SECONDS" -v processors="$(nproc)" \
        -v ticks="$((ticks - first_ticks))" -v stolen="$((stolen - first_stolen))" 'BEGIN {
            printf "%6.1f  all: %.1f user, %.1f system; in %.1f minutes on %d processors, of whose time\n",
                (by_user + by_system) / 60, by_user / 60, by_system / 60, wall / 60, processors
            printf "        other machines took %.1f percent\n", ticks ? 100 * stolen / ticks : 0
        }'
}
