# shellcheck shell=bash
# Builds the program for the script at the top, which has `top`, `program` and `is_current`. First each crate below the program is
# proved, as many side by side as there are processors and memory for, and then the program is compiled.
#
# In one tree only one rt works in a crate and in those below it, and all crates share the lowest ones. So each crate is proved in a
# tree of its own: the files of it and of the crates below are links there, and so are the libraries of those below. What comes of
# it is moved to its place. What rt keeps in a crate's folder out/ may be moved, so it then takes all of that for its own.

crate=${top:?}/crates/framesweep
apart=$crate/out/apart
logs=$crate/out/logs
# A check takes 1 to 5 GB. Where there is less, the crates come one after the other.
memory_each=4000000

# What crates.txt lists for a crate; which crates are below it; how many of the program's are above it; the session at work.
declare -A uses below above group
order=() waiting=() locks=() proved=0

say() { echo "framesweep: $*" >&2; }

say_at_work() { say "$proved of $all proved, $(time_so_far), at work: ${!group[*]}"; }

time_so_far() { echo "$((SECONDS / 60)) min $((SECONDS % 60)) s"; }

# ---- which crates

read_list() {
    local line head
    while read -r line; do
        head=${line%%:*}
        [ -z "$head" ] || uses[${head%% *}]=${line#*:}
    done < <(sed 's/#.*//' "$top/crates.txt")
}

# Puts a crate into the order, behind those that it stands on, and notes these.
put_in_order() {
    local low lower
    [ -z "${below[$1]}" ] || return 0
    below[$1]=' '
    for low in ${uses[$1]}; do
        # The others are the kit's.
        [ -n "${uses[$low]+there}" ] || continue
        put_in_order "$low"
        for lower in ${below[$low]} "$low"; do
            [[ ${below[$1]} == *" $lower "* ]] || below[$1]+="$lower "
        done
    done
    order+=("$1")
    for low in ${below[$1]}; do above[$low]=$((${above[$low]:-0} + 1)); done
}

mark_of() { echo "$top/crates/$1/out/proved"; }

# Whether a crate's library is there, by the same kit, and no older than its files and the libraries below. Whatever else may have
# changed rt finds when it compiles.
is_kept() {
    local folder=$top/crates/$1 mark low older newer
    mark=$(mark_of "$1")
    [ -e "$folder/out/rlib" ] && [ "$(cat "$mark" 2>/dev/null)" = "$kit" ] || return 1
    older=("$folder"/{src,specs,proofs})
    for low in ${below[$1]}; do older+=("$(mark_of "$low")"); done
    newer=$(find "${older[@]}" -type f -newer "$mark" -print -quit 2>/dev/null)
    [ -z "$newer" ]
}

# The crates that have to be proved: those with no library that can be kept, and all above them.
find_waiting() {
    local each
    for each in "${order[@]}"; do
        is_kept "$each" && ! is_above_waiting "$each" || waiting+=("$each")
    done
}

is_above_waiting() {
    local low
    for low in ${below[$1]}; do [[ " ${waiting[*]} " != *" $low "* ]] || return 0; done
    return 1
}

# ---- one crate in a tree of its own

link() { cp -al "$@" 2>/dev/null || cp -a "$@"; }

# Makes the tree of a crate. What rt has kept of that crate goes there too, so that it proves only what has changed.
make_tree() {
    local tree=$apart/$1 each part
    mkdir -p "$tree/crates/$1" && cp "$top/HANDLES" "$tree" || return 1
    [ ! -e "$top/crates/$1/out" ] || mv "$top/crates/$1/out" "$tree/crates/$1" || return 1
    for each in ${below[$1]} "$1"; do
        grep "^${each}[ :]" "$top/crates.txt" >>"$tree/crates.txt"
        mkdir -p "$tree/crates/$each/out"
        for part in src specs proofs out/rlib; do
            [ ! -e "$top/crates/$each/$part" ] || link "$top/crates/$each/$part" "$tree/crates/$each/$part" || return 1
        done
    done
}

# Moves what rt made of a crate to its place.
take_back() {
    [ ! -e "$apart/$1/crates/$1/out" ] || mv "$apart/$1/crates/$1/out" "$top/crates/$1"
    rm -rf "${apart:?}/$1"
}

# ---- side by side

# Begins a command for a crate in a session of its own, so that it can be ended with all that it has started, and the terminal is
# left alone. When it ends, a line with the crate and the status comes through the pipe of events.
begin() {
    local name=$1 folder=$2
    shift 2
    # shellcheck disable=SC2016
    setsid bash -c 'cd "$2" && "${@:5}" </dev/null >"$3" 2>&1; echo "$1 $?" >&"$4"' - \
        "$name" "$folder" "$logs/$name.log" "$events" "$@" &
    group[$name]=$!
}

# Ends all that is at work, and puts back what it made.
end_all() {
    local each
    # Its number is that of its first process, which may not have begun the session yet.
    for each in "${group[@]}"; do kill -TERM -- "-$each" "$each" 2>/dev/null; done
    wait
    for each in "${!group[@]}"; do take_back "$each"; done
    group=()
}

stop_for() {
    end_all
    rm -rf "$apart"
    say "stopped after $(time_so_far); what was proved is kept"
    trap - INT TERM HUP
    kill -s "$1" $$
}

# How many crates may be at work: as many as FRAMESWEEP_AT_ONCE says, where that is set.
most_at_once() {
    [ -z "${FRAMESWEEP_AT_ONCE:-}" ] || { echo "$FRAMESWEEP_AT_ONCE" && return; }
    local processors free most
    processors=$(nproc)
    free=$(sed -n 's/^MemAvailable: *\([0-9]*\) kB$/\1/p' /proc/meminfo)
    most=$((${free:-0} / memory_each))
    [ "$most" -le "$processors" ] || most=$processors
    echo $((most > 1 ? most : 1))
}

# The place of a crate that can begin, as all below it are there: of several it is the one that most crates stand on.
next_place() {
    local place each low best=''
    for place in "${!waiting[@]}"; do
        each=${waiting[$place]}
        for low in ${below[$each]}; do
            [[ " ${waiting[*]} ${!group[*]} " != *" $low "* ]] || continue 2
        done
        [ -n "$best" ] && [ "${above[$each]}" -le "${above[${waiting[$best]}]}" ] || best=$place
    done
    echo "$best"
}

# Whether nothing can be proved beside a crate: nothing is at work, and all that waits stands on it.
is_alone() {
    local each
    [ ${#group[@]} -eq 0 ] || return 1
    for each in "${waiting[@]}"; do
        [[ ${below[$each]} == *" $1 "* ]] || return 1
    done
}

# Begins as many crates as there is room for. One that is alone has all the room, a job for each processor, where rt would choose
# as if others were at work. Where there is room for one only, rt knows better how many jobs fit.
begin_more() {
    local place name jobs
    while [ ${#group[@]} -lt "$room" ] && place=$(next_place) && [ -n "$place" ]; do
        name=${waiting[$place]}
        unset "waiting[$place]"
        # Of what changes from here on rt may know nothing.
        echo "$kit" >"$apart/$name.mark"
        make_tree "$name" || { say "$name: its tree could not be made in $apart" && take_back "$name" && return 1; }
        jobs=()
        [ "$room" -eq 1 ] || ! is_alone "$name" || jobs=(--jobs "$room")
        begin "$name" "$apart/$name/crates/$name" rt lib "${jobs[@]}"
    done
    [ ${#group[@]} -eq 0 ] || say_at_work
}

# Proves the crates that wait. Where none of them can begin, crates.txt is wrong, which rt tells when it compiles.
prove() {
    local name status
    while begin_more || return 1; [ ${#group[@]} -gt 0 ]; do
        read -r name status <&"$events"
        unset "group[$name]"
        take_back "$name"
        [ "$status" -eq 0 ] || { say "$name is not proved (rt ended with $status): see $logs/$name.log" && return 1; }
        mv "$apart/$name.mark" "$(mark_of "$name")"
        proved=$((proved + 1))
    done
}

# Compiles the program over the libraries. With no words the program refuses them, so its own run here does nothing, and its status
# says nothing.
compile() {
    touch "$logs/began"
    begin framesweep "$crate" rt run
    say_at_work
    read -r _ <&"$events"
    unset 'group[framesweep]'
    [ -x "$program" ] || { say "framesweep is not built: see $logs/framesweep.log" && return 1; }
    touch -r "$logs/began" "$program"
    is_current || { say "files changed while framesweep was built: begin again" && return 1; }
}

# ---- the whole

# Keeps other runs of rt out of the crates, as rt itself does, and waits for those that are at work there.
lock_all() {
    local each lock
    for each in "${order[@]}"; do
        exec {lock}<"$top/crates/$each" && locks+=("$lock")
        flock -n "$lock" || { say "waiting for another rt to end in crates/$each" && flock "$lock"; }
    done
}

unlock_all() {
    local lock
    for lock in "${locks[@]}"; do exec {lock}<&-; done
}

prove_and_compile() {
    prove
    local status=$?
    end_all
    rm -rf "$apart"
    # rt takes the locks itself.
    unlock_all
    [ "$status" -eq 0 ] && compile
}

build() {
    local events room all kit each status
    SECONDS=0
    kit=$(rt version 2>/dev/null) || { say "there is no rt: README.md names the kit that has it" && return 1; }
    read_list
    put_in_order framesweep
    all=${#order[@]}
    unset 'order[-1]'
    lock_all
    find_waiting
    proved=$((${#order[@]} - ${#waiting[@]}))
    room=$(most_at_once)
    say "building: $all crates are proved first, up to $room side by side (minutes the first time, seconds later)"
    # A build that fails leaves the program of before, which is not what stands here.
    rm -rf "$program" "$apart" "$logs"
    mkdir -p "$apart" "$logs" && mkfifo "$apart/events" && exec {events}<>"$apart/events" && rm "$apart/events" || return 1
    for each in INT TERM HUP; do
        # shellcheck disable=SC2064
        trap "stop_for $each" "$each"
    done
    prove_and_compile
    status=$?
    trap - INT TERM HUP
    exec {events}>&-
    [ "$status" -ne 0 ] || say "built in $(time_so_far)"
    return "$status"
}
