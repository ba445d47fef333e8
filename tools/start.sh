# A part of the scripts that start the program: it counts cores for `--workers auto`, limits the memory that the program may take,
# and starts no other process.

# Starts a program on some words. If these ask for as many workers as cores, the number stands in the place of the word.
start_program() {
    program=$1
    shift
    workers_of "$@"
    if [ "$asks_for_cores" = yes ]; then
        count_cores
        before= left=$#
        while [ "$cores" != 0 ] && [ "$left" != 0 ]; do
            word=$1
            shift
            case $before:$word in
                --workers:auto) set -- "$@" "$cores" ;;
                *:--workers=auto) set -- "$@" "--workers=$cores" ;;
                *) set -- "$@" "$word" ;;
            esac
            before=$word left=$((left - 1))
        done
    fi
    # (a query over lines has as many workers as cores unless it says how many)
    if [ "${1-}" = lines ] && [ "$names_workers" = no ]; then
        count_cores
        if [ "$cores" != 0 ]; then
            shift
            set -- lines "--workers=$cores" "$@"
        fi
    fi
    limit_memory "$@"
    # (on a terminal a second line says why something failed)
    [ ! -t 2 ] || export PLINQ_EXPLAIN=yes
    exec "$program" "$@"
}

# The last word or number that the words have for `--workers`, whether there is one, and whether one of them is `auto`. Without it
# there are four, and for lines as many as cores.
workers_of() {
    workers=4 before= asks_for_cores=no names_workers=no
    [ "${1-}" != lines ] || workers=auto
    for word in "$@"; do
        case $before:$word in
            --workers:*) workers=$word names_workers=yes ;;
            *:--workers=*) workers=${word#*=} names_workers=yes ;;
        esac
        case $before:$word in
            --workers:auto | *:--workers=auto) asks_for_cores=yes ;;
        esac
        before=$word
    done
}

# How many cores this process may use: those of its affinity that are there, but no more than the quota of any control group
# around it, rounded up, and at most 64. None if the system doesn't say.
count_cores() {
    cores=0 allowed=
    [ -r /proc/self/status ] || return 0
    while read -r name value; do
        [ "$name" != Cpus_allowed_list: ] || { allowed=$value && break; }
    done </proc/self/status
    online=$allowed
    if [ -r /sys/devices/system/cpu/online ]; then
        { read -r online </sys/devices/system/cpu/online; } 2>/dev/null || online=$allowed
    fi
    separators=$IFS IFS=,
    for ours in $allowed; do
        for theirs in $online; do
            low=${ours%-*} high=${ours#*-}
            [ "$low" -ge "${theirs%-*}" ] || low=${theirs%-*}
            [ "$high" -le "${theirs#*-}" ] || high=${theirs#*-}
            [ "$low" -gt "$high" ] || cores=$((cores + high - low + 1))
        done
    done
    IFS=$separators
    [ "$cores" -le 64 ] || cores=64
    [ -r /proc/self/cgroup ] || return 0
    while IFS=: read -r number controllers path; do
        case $number:,$controllers, in
            0:,,) quotas /sys/fs/cgroup "$path" cpu.max '' ;;
            *,cpu,*) quotas /sys/fs/cgroup/cpu "$path" cpu.cfs_quota_us cpu.cfs_period_us ;;
        esac
    done </proc/self/cgroup
}

# What a control group and those around it let their processes use, in microseconds of each period. Where the path isn't shown, as
# in a container, the top is the own group.
quotas() {
    path=$2
    while :; do
        quota= period=
        if [ -r "$1$path/$3" ]; then
            { read -r quota period <"$1$path/$3"; } 2>/dev/null || quota=
        fi
        if [ -n "$4" ] && [ -r "$1$path/$4" ]; then
            { read -r period <"$1$path/$4"; } 2>/dev/null || period=
        fi
        case $quota,$period in
            # (none, or more than any machine has)
            ,* | *, | *[!0-9,]* | ????????????????????*) ;;
            *) [ $((cores * period)) -le "$quota" ] || cores=$(((quota + period - 1) / period)) ;;
        esac
        case $path in
            '' | /) break ;;
        esac
        path=${path%/*}
    done
}

# The limit of memory is the lowest of what the machine has available, what each control group around this process has left, and
# PLINQ_MEMORY. Of a run the stacks of as many workers as the words ask for come on top, so that the limit refuses no thread. A
# control group's limit isn't exceeded for them, if it leaves 16 MB beside them: stacks are hardly touched, but threads start late,
# and what a run takes of the room of stacks that aren't there yet would be more than its group has.
# The kernel counts what is mapped to be written. A limit of addresses would have to leave room for what the C library reserves
# for each thread, 64 MB, and that can then be used as well: several GB more than there are.
limit_memory() {
    workers_of "$@"
    # (what isn't a number of workers is refused later)
    case ${1-}:$workers in
        seq:*) workers=0 ;;
        *:[1-9] | *:[1-6][0-9]) ;;
        *:auto) workers=64 ;;
        *) workers=4 ;;
    esac
    # (in kB; more than any machine has)
    most=999999999999
    kilobytes=$most group=$most
    case ${PLINQ_MEMORY-} in
        unlimited) return 0 ;;
        '') ;;
        *) read_size "$PLINQ_MEMORY" ;;
    esac
    if [ -r /proc/meminfo ]; then
        while read -r name number unit; do
            [ "$name" != MemAvailable: ] || { at_most "$number" && break; }
        done </proc/meminfo
    fi
    if [ -r /proc/self/cgroup ]; then
        while IFS=: read -r number controllers path; do
            case $number:,$controllers, in
                0:,,) groups /sys/fs/cgroup "$path" memory.max memory.current '' ;;
                *,memory,*) groups /sys/fs/cgroup/memory "$path" memory.limit_in_bytes memory.usage_in_bytes total_ ;;
            esac
        done </proc/self/cgroup
    fi
    [ "$kilobytes" != "$most" ] || return 0
    stack_of_thread
    stacks=$((workers * stack))
    kilobytes=$((kilobytes + stacks))
    [ "$group" -lt $((stacks + 16384)) ] || [ "$kilobytes" -le "$group" ] || kilobytes=$group
    # (a limit that is lower already stays; a shell reads byte by byte, so no more is read than is wanted)
    data=unlimited soft=unlimited
    if [ -r /proc/self/limits ]; then
        while read -r first second third soft rest; do
            case "$first $second $third" in
                'Max data size') data=$soft ;;
                'Max stack size') break ;;
            esac
        done </proc/self/limits
    fi
    [ "$data" != unlimited ] && [ "$data" -lt $((kilobytes * 1024)) ] || ulimit -S -d "$kilobytes"
    [ "${soft:-unlimited}" != unlimited ] && [ "$soft" -le $((stack * 1024)) ] || ulimit -S -s "$stack"
}

# The limit of a stack in kB. A thread's stack is as large, and counted whole. A query of 999 expansions takes 640 KB of one. Words
# and environment stand in the first one as well, and the kernel starts no program if they take more than a fourth of it. So if they
# are long, eight times as much is added.
stack_of_thread() {
    stack=1024
    [ -r /proc/self/stat ] || return 0
    { read -r numbers </proc/self/stat; } 2>/dev/null || return 0
    # (what follows the name of the process; of that the 46th is where its words begin, the 49th where its environment ends)
    set -- ${numbers##*) }
    [ $# -lt 49 ] || [ $((${49} - ${46})) -le 65536 ] || stack=$((1024 + (${49} - ${46}) / 128))
}

at_most() {
    [ "$kilobytes" -le "$1" ] || kilobytes=$1
}

# A number of bytes, of 1,024 (k), 1,048,576 (M) or 1,073,741,824 (G).
read_size() {
    unit=1 longest=18 number=$1
    case $number in
        *[kK]) unit=1024 ;;
        *[mM]) unit=1048576 ;;
        *[gG]) unit=1073741824 ;;
    esac
    [ "$unit" = 1 ] || longest=9 number=${number%?}
    case $number in
        '' | *[!0-9]* | 0*)
            echo 'plinq: PLINQ_MEMORY is neither a number of bytes, as 500M, nor "unlimited"' >&2
            exit 2
            ;;
    esac
    # (more than a shell computes with is more than there is)
    [ "${#number}" -le "$longest" ] || return 0
    if [ $((number * unit)) -lt 1048576 ]; then
        echo 'plinq: PLINQ_MEMORY is below 1M, in which the program cannot start' >&2
        exit 2
    fi
    at_most $((number * unit / 1024))
}

# What a control group and those around it have left: their limit less what their processes hold. Of that the pages of files
# don't count, which the kernel gives up first. Where the path isn't shown, as in a container, the top is the own group.
groups() {
    path=$2
    while :; do
        if [ -r "$1$path/$3" ] && { read -r limit <"$1$path/$3"; } 2>/dev/null; then
            case $limit in
                # (none, or more than any machine has)
                '' | *[!0-9]* | ???????????????*) ;;
                *) group_has "$1$path" "$limit" "$4" "$5" ;;
            esac
        fi
        case $path in
            '' | /) break ;;
        esac
        path=${path%/*}
    done
}

group_has() {
    used=0 files=0
    if [ -r "$1/$3" ]; then
        { read -r used <"$1/$3"; } 2>/dev/null || used=0
    fi
    if [ -r "$1/memory.stat" ]; then
        while read -r name number; do
            case $name in
                "$4inactive_file" | "$4active_file") files=$((files + number)) ;;
            esac
        done <"$1/memory.stat"
    fi
    [ "$files" -le "$used" ] || files=$used
    left=$((($2 - used + files) / 1024))
    [ "$left" -ge 1024 ] || left=1024
    [ "$group" -le "$left" ] || group=$left
    at_most "$left"
}
