# Has rt ci prove and build the program of the checkout $top, unless that is done: `bring_up_to_date`. It sets $program.
# The file bugassist reads this one.

# WHAT THE PROGRAM IS MADE FROM

# The lines of crates.txt, in this folder, of the program's crate and of those that it stands on.
crate_lines() {
    awk '
        { sub(/#.*/, "") }
        NF { name = $1; sub(/:.*/, "", name); line[name] = $0; sub(/[^:]*:/, ""); below[name] = $0 }
        END {
            crates[count = 1] = "bugassist"
            for (i = 1; i <= count; i++) {
                print line[crates[i]]
                words = split(below[crates[i]], names, " ")
                for (j = 1; j <= words; j++)
                    if (names[j] in below && !(names[j] in found)) {
                        found[names[j]]
                        crates[++count] = names[j]
                    }
            }
        }
    ' crates.txt
}

# The files and folders, in this folder, that rt ci reads of these crates; no edit that must be refused is among them.
source_paths() {
    for crate in $(crate_lines | sed 's/[ :].*//'); do
        for part in src specs proofs args data stdin stdout status; do
            [ ! -e "crates/$crate/$part" ] || echo "crates/$crate/$part"
        done
    done
    [ ! -e HANDLES ] || echo HANDLES
}

# A sum of all that the program in this folder is made from: the texts, their places and the lines of crates.txt.
sum_of() (
    cd "$1" || exit
    # No name of a crate or a part has a blank.
    # shellcheck disable=SC2046
    { crate_lines && find $(source_paths) -type f -exec sha256sum {} + | LC_ALL=C sort; } | sha256sum | cut -d ' ' -f 1
)

# Names the program of the sources as they stand. The name has their sum, and a file gets it only once it was proved and
# built from a copy of this sum. So a file of this name is current, whatever was edited, put back or proved meanwhile.
# A whole rt ci empties crates/*/out and leaves out/ at the top alone, so the program survives it. What a whole rt ci
# leaves itself is not taken, since nothing says which sources it was made from. rt ci is called over a copy once more,
# and there takes over what it has kept of the same sources.
name_program() {
    program=$built/bugassist-$(sum_of "$top")
}

# PROVING

# Stops where proving can't begin.
look_at_machine() {
    command -v rt >/dev/null ||
        give_up 'the program has to be proved and built first, and there is no rt on the path, the Rattle toolchain'
    temporary=$(cd "${TMPDIR:-/tmp}" 2>/dev/null && pwd) && [ -w "$temporary" ] ||
        give_up "no folder can be made in ${TMPDIR:-/tmp}; set TMPDIR to one with 3000 MB free"
    free=$(df -Pk "$temporary" | awk 'NR == 2 { print int($4 / 1024) }')
    [ "${free:-5000}" -ge 3000 ] ||
        give_up "$temporary has $free MB free, and proving wants 3000; make room there, or set TMPDIR to another folder"
    [ "${free:-5000}" -ge 5000 ] ||
        say "$temporary has $free MB free; on a disk with less than 5000 the toolchain keeps nothing for the next call"
}

# Asks for a check on each processor, or for fewer where not each finds 3.5 GB, which no check has passed. By itself rt
# goes by guesses of up to 3.7 times what a check takes. A toolchain that does not know the word is not changed by it.
set_jobs() {
    [ -z "${RT_JOBS-}" ] || return 0
    # A control group with a limit has less than the machine. rt looks at that by itself.
    case $(cat /sys/fs/cgroup/memory.max 2>/dev/null) in
        [0-9]*) return 0 ;;
    esac
    jobs=$(awk '/^MemAvailable:/ { print int($2 / (3.5 * 1024 * 1024)) }' /proc/meminfo 2>/dev/null)
    processors=$(nproc 2>/dev/null || getconf _NPROCESSORS_ONLN)
    [ -n "$jobs" ] && [ -n "$processors" ] || return 0
    [ "$jobs" -le "$processors" ] || jobs=$processors
    [ "$jobs" -ge 1 ] || jobs=1
    RT_JOBS=$jobs
    export RT_JOBS
}

announce() {
    say 'proving and building the program: an hour of processor time with nothing proved, a minute with all proved'
    say 'for a first look this builds it without proof in two to three minutes, for small programs:'
    say "  cd '$top/crates/bugassist'"
    say '  rt try --data prog.c=/PATH/OF/PROG --data input.txt=/PATH/OF/INPUT -- localise prog.c input.txt --bound 5'
}

# Takes the turn to prove in this checkout, if no other call has it. A lock of flock ends with the call that has it.
# Where there is no flock, the turn is a folder, which stays where its call was killed. But a call that proves touches
# it each second, so a folder that is a minute old is free.
has_turn() {
    if command -v flock >/dev/null; then
        flock -n 9
        return
    fi
    [ -z "$(find "$built/turn" -prune -mmin +1 2>/dev/null)" ] || rmdir "$built/turn" 2>/dev/null
    mkdir "$built/turn" 2>/dev/null && turn=$built/turn
}

# Waits for the turn, which lasts until end_proving. Two that prove at a time do no harm, as each has a folder of its
# own: they only do the same work twice.
take_turn() {
    exec 9>>"$built/lock"
    has_turn && return
    say 'another call is proving the program in this checkout; waiting for it'
    until has_turn; do
        sleep 1
    done
}

# Copies what rt ci reads into the folder $copy.
copy_sources() (
    cd "$top" || exit
    mkdir -p "$copy" && crate_lines >"$copy/crates.txt" || exit
    for path in $(source_paths); do
        to=$copy/$path
        mkdir -p "${to%/*}" && cp -R "$path" "$to" || exit
    done
)

# How many crates rt ci has told as proved, or as kept from an earlier run.
count_proved() {
    grep -c -E '^rt: [A-Za-z0-9_]+ (proved$|is kept)' "$room/log"
}

# Says how far rt ci is, until it has ended. On a terminal one line is written anew; else every fifth crate has a line.
show_progress() {
    crates=$(cd "$copy" && crate_lines | grep -c .)
    began=$(date +%s)
    told=0
    while kill -0 "$rt_ci" 2>/dev/null; do
        proved=$(count_proved)
        line="bugassist: proved $proved of $crates crates, $((($(date +%s) - began) / 60)) min"
        if [ -t 2 ]; then
            printf '\r%s\033[K' "$line" >&2
        elif [ "$proved" -ge $((told + 5)) ]; then
            echo "$line" >&2
            told=$proved
        fi
        [ -z "$turn" ] || touch "$turn"
        sleep 1
    done
    [ ! -t 2 ] || printf '\r\033[K' >&2
}

# Keeps what rt ci said, removes all else that proving made, and lets the next call have its turn.
end_proving() {
    if [ -s "$room/log" ]; then
        mkdir -p "${log%/*}" && cp "$room/log" "$log" || say "$log could not be written"
    fi
    # What a killed check still writes keeps the folder for a moment.
    [ -z "$room" ] || rm -rf "$room" 2>/dev/null || {
        sleep 1
        rm -rf "$room"
    }
    [ -z "$turn" ] || rmdir "$turn"
    exec 9>&-
}

# Ends proving and this call by a signal.
leave() {
    trap '' INT TERM HUP
    if [ -n "$rt_ci" ]; then
        # What rt has started ends with it.
        kill "$rt_ci" 2>/dev/null
        wait "$rt_ci" 2>/dev/null
    fi
    end_proving
    [ ! -t 2 ] || echo >&2
    say 'interrupted; where the toolchain keeps what is proved, the next call goes on from there'
    trap - EXIT "$1"
    kill -s "$1" $$
}

# Says why rt ci gave no program, by its status.
give_up_proving() {
    if [ "$1" -gt 128 ]; then
        say 'rt ci was stopped by a signal; call again, and it goes on where the toolchain keeps what is proved'
    elif grep -q -i -e 'disk is full' -e 'no space left on device' "$room/log"; then
        say "the disk is full; make room in $temporary and beside the toolchain, and call again"
    fi
    give_up "rt ci did not prove and build the program: '$(tail -n 1 "$room/log")'; all that it said is in $log"
}

# Has rt ci prove and build the program in a folder of its own, and takes the program from there.
prove() {
    room=$(mktemp -d "$temporary/bugassist-XXXXXX") ||
        give_up "no folder can be made in $temporary; set TMPDIR to one with 3000 MB free"
    copy=$room/copy
    # rt runs the program as nobody, who has to pass the folder. What rt leaves where it is killed lies in it too.
    chmod 711 "$room" && mkdir "$room/tmp" && chmod 1777 "$room/tmp" && copy_sources ||
        give_up "the sources cannot be copied to $temporary; set TMPDIR to a folder with 3000 MB free"
    # The sources may be edited from now on. The program has the name of those that were copied.
    program=$built/bugassist-$(sum_of "$copy")
    set_jobs
    (cd "$copy" && exec env TMPDIR="$room/tmp" rt ci) </dev/null >"$room/log" 2>&1 9>&- &
    rt_ci=$!
    show_progress
    wait "$rt_ci" && [ -x "$copy/crates/bugassist/out/bugassist" ] || give_up_proving $?
    place 755 "$copy/crates/bugassist/out/bugassist" "$program" || give_up "$built cannot be written"
    for old in "$built"/bugassist-*; do
        [ "$old" = "$program" ] || rm -f "$old"
    done
    say 'the program is proved and built'
}

# Has the program of this checkout proved and built, unless it is.
bring_up_to_date() {
    built=$top/out
    log=$top/crates/bugassist/out/proof.log
    name_program
    [ ! -x "$program" ] || return 0
    look_at_machine
    mkdir -p "$built" && [ -w "$built" ] && touch "$built/lock" || give_up "$built cannot be written"
    room='' turn='' rt_ci=''
    trap end_proving EXIT
    trap 'leave INT' INT
    trap 'leave TERM' TERM
    trap 'leave HUP' HUP
    take_turn
    # Another call may have proved it meanwhile.
    name_program
    if [ ! -x "$program" ]; then
        announce
        prove
    fi
    end_proving
    trap - EXIT INT TERM HUP
}
