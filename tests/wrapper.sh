#!/bin/sh
# Tries the command bugassist and the scripts of wrapper/, in a small checkout of its own, with a toolchain and a program
# that are scripts: nothing is proved. It prints a line for each case that fails, and 'N passed, M failed' at the end.

unset CDPATH BUGASSIST_EXPLAIN BUGASSIST_PROGRESS RT_JOBS
repository=$(cd "$(dirname "$0")/.." && pwd) || exit 1
trials=$(mktemp -d) || exit 1
trap 'umount "$trials/tiny" 2>/dev/null; rm -rf "$trials"' EXIT
trap 'exit 1' INT TERM HUP

passed=0
failed=0

# THE STAND-INS

# The toolchain: `rt ci` prints what the real one prints, and makes the files that it makes. What it proved it keeps in
# $KEPT, where that is set. It takes SLEEP seconds for a crate, and does not prove the crate $BAD.
make_toolchain() {
    mkdir "$1"
    cat >"$1/rt" <<'END'
#!/bin/sh
echo "$*" >>"$CALLS"
echo "jobs ${RT_JOBS-none}" >>"$CALLS"
[ "$*" = ci ] || exit 2
find . | sort >"$CALLS.files"
echo $$ >"$CALLS.pid"
[ -z "${DIES-}" ] || kill $$
rm -rf crates/*/out
passed=0
for crate in $(sed 's/#.*//; s/:.*//; /^ *$/d; /^bugassist$/d' crates.txt | sort) bugassist; do
    sum=$(cat "crates/$crate/src"/* "crates/$crate/specs"/* 2>/dev/null | sha256sum | cut -c 1-16)
    mkdir "crates/$crate/out"
    if [ -n "${KEPT-}" ] && [ -e "$KEPT/$crate-$sum" ]; then
        echo "rt: $crate is kept: an earlier run on this machine proved the same files over the same libraries"
    else
        sleep "${SLEEP:-0}"
        echo "== $crate"
        echo "fn $crate::lib::first: proved"
        if [ "$crate" = "${BAD-}" ]; then
            echo "rt: $crate NOT PROVED"
            echo "${COMPLAINT:-rt: FAILED: $crate}"
            echo "$passed passed, 1 failed"
            exit 1
        fi
        echo "rt: $crate proved"
        echo "rt: $crate: its tests are proved"
        [ -z "${KEPT-}" ] || : >"$KEPT/$crate-$sum"
    fi
    passed=$((passed + 1))
done
{ cat "$PROGRAM"; echo "# built of: $(cat crates/base_a/src/lib.rt)"; } >crates/bugassist/out/bugassist
chmod 755 crates/bugassist/out/bugassist
cp crates/bugassist/out/bugassist crates/bugassist/out/bugassist.by-rattle
echo 'rt: ok; handles allowed: none; every proof and must-fail edit was done in this run'
echo "$passed passed, 0 failed"
END
    # A disk with FREE kilobytes, or the real one.
    cat >"$1/df" <<'END'
#!/bin/sh
[ -n "${FREE-}" ] || exec /bin/df "$@"
echo 'Filesystem 1024-blocks Used Available Capacity Mounted on'
echo "disk 1 1 $FREE 1% /"
END
    # A second passes in a tenth.
    cat >"$1/sleep" <<'END'
#!/bin/sh
[ "$1" != 1 ] || set -- 0.1
exec /bin/sleep "$@"
END
    chmod 755 "$1/rt" "$1/df" "$1/sleep"
}

# The program: it notes its words, which standard streams are open and its stack, prints the file $ANSWER, and ends with
# $STATUS, or with 12 where printing fails.
make_program() {
    cat >"$1" <<'END'
#!/bin/sh
streams=
for number in 0 1 2; do
    [ ! -e "/proc/$$/fd/$number" ] || streams=$streams$number
done
printf '<%s>' "$@" >"$WORDS"
echo "$streams" >"$WORDS.streams"
ulimit -S -s >"$WORDS.stack"
[ -z "${LATE-}" ] || sleep "$LATE"
(trap '' PIPE; cat "$ANSWER" 2>/dev/null) || exit 12
exit "${STATUS:-0}"
END
}

# A folder with the commands that are needed, and not those named.
make_commands() {
    mkdir "$1"
    for command in sh awk sed find sort sha256sum cut cat cp mv rm mkdir rmdir chmod mktemp date grep sleep touch tail \
        readlink env nproc getconf tr flock head cmp ls wc; do
        case " $2 " in
            *" $command "*) ;;
            *) ! command -v "$command" >/dev/null || ln -s "$(command -v "$command")" "$1/$command" ;;
        esac
    done
}

# A checkout with twelve crates that the program stands on, and one that it does not stand on.
make_checkout() {
    mkdir "$1" "$1/crates" "$1/.git"
    cp -R "$repository/bugassist" "$repository/wrapper" "$1"
    echo 'Handles allowed: none.' >"$1/HANDLES"
    names='base_a base_b base_c base_d base_e base_f base_g base_h base_i base_j base_k'
    {
        echo '# Each crate with the crates that it stands on.'
        for name in $names; do
            echo "$name:"
        done
        echo "ba_tool: $names smallvec"
        echo 'trials: ba_tool'
        echo 'bugassist: ba_tool # the program'
    } >"$1/crates.txt"
    for name in $names ba_tool trials bugassist; do
        mkdir -p "$1/crates/$name/src" "$1/crates/$name/specs" "$1/crates/$name/proofs/lib" "$1/crates/$name/must-fail"
        echo "fn $name" >"$1/crates/$name/src/lib.rt"
        echo "-- $name" >"$1/crates/$name/specs/Lib.antt"
        echo "-- $name" >"$1/crates/$name/proofs/lib/Answers.antt"
        echo 'file: src/lib.rt' >"$1/crates/$name/must-fail/one.edit"
    done
    mkdir "$1/crates/bugassist/data"
    echo 1 >"$1/crates/bugassist/data/in.txt"
    echo run >"$1/crates/bugassist/args"
    echo out >"$1/crates/bugassist/stdout"
}

# CALLING AND CHECKING

# Calls bugassist, or the command named, in another folder; its output, its complaints and its status are kept.
call() {
    (cd "$trials/elsewhere" && exec "$@") >"$trials/out" 2>"$trials/err"
    status=$?
}

check() {
    label=$1
    shift
    if "$@"; then
        passed=$((passed + 1))
    else
        failed=$((failed + 1))
        echo "FAILED: $label"
        sed 's/^/    /' "$trials/err" | head -n 8
    fi
}

ends_with() { [ "$status" -eq "$1" ]; }
prints() { [ "$(cat "$trials/out")" = "$1" ]; }
complains() { grep -q -F -e "$1" "$trials/err"; }
complains_exactly() { [ "$(cat "$trials/err")" = "$1" ]; }
is_silent() { [ ! -s "$trials/err" ]; }
proofs_are() { [ "$(grep -c -x ci "$CALLS")" -eq "$1" ]; }
# Nothing is left where temporary files stand.
is_clear() { [ -z "$(ls -A "$TMPDIR")" ]; }
saw() { grep -q -x -F -e "$1" "$CALLS.files"; }
saw_none() { ! grep -q -e "$1" "$CALLS.files"; }
is_built_of() { grep -q -x -F -e "# built of: $1" "$checkout"/out/bugassist-*; }
one_program() { [ "$(find "$checkout/out" -name 'bugassist-*' | wc -l)" -eq 1 ]; }
is_before() { [ "$(($(date +%s) - began))" -le "$1" ]; }
keeps() { [ -n "$(find "$KEPT" -name "$1-*")" ]; }
is_gone() { ! kill -0 "$1" 2>/dev/null; }
answers() {
    STATUS=$1
    printf "$2" >"$ANSWER"
}
# Waits, at most ten seconds, until a command is true.
until_true() {
    tries=0
    until "$@" || [ "$tries" -ge 100 ]; do
        tries=$((tries + 1))
        sleep 0.1
    done
}

mkdir "$trials/elsewhere" "$trials/tmp" "$trials/kept"
make_toolchain "$trials/bin"
make_program "$trials/program"
make_checkout "$trials/checkout"
checkout=$trials/checkout
bugassist=$checkout/bugassist
export TMPDIR="$trials/tmp" KEPT="$trials/kept" CALLS="$trials/calls" PROGRAM="$trials/program" FREE=9000000
export ANSWER="$trials/answer" WORDS="$trials/words" STATUS=0 SLEEP=0 BAD='' COMPLAINT='' LATE='' DIES=''
without_flock=$trials/without_flock
make_commands "$without_flock" flock
make_commands "$trials/without_rt" rt
path=$PATH
PATH=$trials/bin:$path
: >"$CALLS"
answers 0 'the report\n'

# FIRST USE

SLEEP=0.2 call "$bugassist" run p.c in.txt --bound 3
check 'first use: the program runs' ends_with 0
check 'first use: its text is printed' prints 'the report'
check 'first use: it has the words' [ "$(cat "$WORDS")" = '<run><p.c><in.txt><--bound><3>' ]
check 'first use: rt ci is called once, with no names' proofs_are 1
check 'first use: what it costs is said' complains 'an hour of processor time'
check 'first use: a look without proof is named' complains "cd '$checkout/crates/bugassist'"
check 'first use: and how it is called' complains 'rt try --data prog.c='
check 'first use: without a terminal every fifth crate is told' complains 'bugassist: proved 5 of 13 crates, 0 min'
check 'first use: and no other' [ "$(grep -c ' of 13 crates' "$trials/err")" -le 2 ]
check 'first use: no line is written anew' [ "$(tr -d -c '\r' <"$trials/err" | wc -c)" -eq 0 ]
check 'first use: the folder is removed' is_clear
check 'first use: what rt ci said is kept' grep -q -x '13 passed, 0 failed' "$checkout/crates/bugassist/out/proof.log"
check 'the folder has src' saw ./crates/base_a/src/lib.rt
check 'the folder has proofs' saw ./crates/ba_tool/proofs/lib/Answers.antt
check 'the folder has data' saw ./crates/bugassist/data/in.txt
check 'the folder has args' saw ./crates/bugassist/args
check 'the folder has HANDLES' saw ./HANDLES
check 'the folder has no edits' saw_none must-fail
check 'the folder has no .git' saw_none '\.git'
check 'the folder has no crate above the program' saw_none trials

call "$bugassist" run p.c in.txt --bound 3
check 'second use: nothing is proved or said' proofs_are 1
check 'second use: nothing is said' is_silent
check 'second use: its text is printed' prints 'the report'

# WHEN IT IS CURRENT

echo 'fn trials, other' >"$checkout/crates/trials/src/lib.rt"
echo 'file: src/main.rt' >"$checkout/crates/base_a/must-fail/one.edit"
call "$bugassist" run
check 'a crate that the program does not stand on: nothing is proved' proofs_are 1

cp -p "$checkout/crates/base_a/src/lib.rt" "$trials/before"
echo 'fn base_a, other' >"$checkout/crates/base_a/src/lib.rt"
touch -r "$trials/before" "$checkout/crates/base_a/src/lib.rt"
call "$bugassist" run
check 'a source is other, with its old time: it is proved' proofs_are 2
check 'a source is other: the program is made of it' is_built_of 'fn base_a, other'
check 'a source is other: the old program is gone' one_program
cp -p "$trials/before" "$checkout/crates/base_a/src/lib.rt"
call "$bugassist" run
check 'a source is put back: the program is made of it' is_built_of 'fn base_a'

: >"$CALLS"
(cd "$checkout" && rt ci) >/dev/null
check 'a whole rt ci empties the folders out' [ ! -e "$checkout/crates/bugassist/out/proof.log" ]
call "$bugassist" run
check 'after a whole rt ci nothing is proved' proofs_are 1
check 'after a whole rt ci the text is printed' prints 'the report'

checkout=$trials/second
make_checkout "$checkout"
rm -rf "$KEPT"
mkdir "$KEPT"
(cd "$checkout" && rt ci) >/dev/null
SLEEP=5
began=$(date +%s)
call "$checkout/bugassist" run
check 'rt ci first, in another clone: what it kept is taken over' is_before 4
check 'rt ci first: no crate is proved anew' [ "$(grep -c ' is kept' "$checkout/crates/bugassist/out/proof.log")" -eq 13 ]
SLEEP=0
rm -rf "$checkout"
make_checkout "$checkout"
KEPT='' call "$checkout/bugassist" run
check 'a toolchain that keeps nothing: the program runs' prints 'the report'

# TWO AT A TIME, AND STOPPED ONES

# A command that is started beside a script ignores INT, but for this.
with_signals='env --default-signal=INT'
$with_signals true 2>/dev/null || with_signals=

# Starts a call beside this one, and waits until it proves.
start() {
    rm -f "$CALLS.pid"
    (cd "$trials/elsewhere" && exec $with_signals "$checkout/bugassist" run) >"$trials/out.1" 2>"$trials/err.1" &
    first=$!
    until_true test -s "$CALLS.pid"
}

two_at_a_time() {
    rm -rf "$checkout"
    make_checkout "$checkout"
    rm -f "$KEPT"/*
    : >"$CALLS"
    SLEEP=0.2
    start
    call "$checkout/bugassist" run
    wait "$first"
    first=$?
    SLEEP=0
    check "two at a time$1: both end well" [ "$first.$status" = 0.0 ]
    check "two at a time$1: both print the text" cmp -s "$trials/out" "$trials/out.1"
    check "two at a time$1: one proves" proofs_are 1
    check "two at a time$1: the other says that it waits" complains 'another call is proving'
    check "two at a time$1: the folders are removed" is_clear
}

two_at_a_time ''
PATH=$trials/bin:$without_flock two_at_a_time ' without flock'
check 'without flock: the turn is given back' [ ! -e "$checkout/out/turn" ]

stopped() {
    rm -rf "$checkout"
    make_checkout "$checkout"
    rm -f "$KEPT"/*
    : >"$CALLS"
    SLEEP=0.3
    start
    until_true keeps base_a
    kill -s "$1" "$first"
    wait "$first" 2>/dev/null
    status=$?
    cp "$trials/err.1" "$trials/err"
    check "stopped by $1: the status is that of the signal" ends_with "$2"
    check "stopped by $1: it says so" complains 'interrupted'
    check "stopped by $1: rt ci has ended" is_gone "$(cat "$CALLS.pid")"
    check "stopped by $1: the folder is removed" is_clear
    SLEEP=0
    call "$checkout/bugassist" run
    check "stopped by $1: the next call goes on" grep -q 'base_a is kept' "$checkout/crates/bugassist/out/proof.log"
    check "stopped by $1: and ends" prints 'the report'
}

[ -z "$with_signals" ] || stopped INT 130
stopped TERM 143
stopped HUP 129

killed() {
    rm -rf "$checkout"
    make_checkout "$checkout"
    rm -f "$KEPT"/*
    SLEEP=0.3
    start
    kill -s KILL "$first" "$(cat "$CALLS.pid")"
    wait "$first" 2>/dev/null
    [ ! -d "$checkout/out/turn" ] || touch -d '2 minutes ago' "$checkout/out/turn"
    SLEEP=0
    began=$(date +%s)
    call "$checkout/bugassist" run
    check "killed$1: the next call is not kept waiting" is_before 4
    check "killed$1: and prints the text" prints 'the report'
    rm -rf "${TMPDIR:?}"/*
}

killed ''
PATH=$trials/bin:$without_flock killed ' without flock'

# WHERE IT CANNOT PROVE

fresh() {
    rm -rf "$checkout"
    make_checkout "$checkout"
    rm -f "$KEPT"/*
    : >"$CALLS"
}

fresh
BAD=base_c call "$checkout/bugassist" run
check 'not proved: status 70' ends_with 70
check 'not proved: the log is named' complains "all that it said is in $checkout/crates/bugassist/out/proof.log"
check 'not proved: the last line is told' complains "'3 passed, 1 failed'"
check 'not proved: the log is there' grep -q 'base_c NOT PROVED' "$checkout/crates/bugassist/out/proof.log"
check 'not proved: nothing is run' prints ''
check 'not proved: the folder is removed' is_clear

fresh
BAD=base_c COMPLAINT='rt: the disk is full, with 0 MB left: remove copies' call "$checkout/bugassist" run
check 'the disk is full: status 70' ends_with 70
check 'the disk is full: it says so' complains 'bugassist: the disk is full; make room in'

fresh
DIES=1 call "$checkout/bugassist" run
check 'rt ci is killed: status 70' ends_with 70
check 'rt ci is killed: it says so' complains 'bugassist: rt ci was stopped by a signal; call again'

fresh
PATH=$trials/without_rt call "$checkout/bugassist" run
check 'no toolchain: status 70' ends_with 70
check 'no toolchain: it says so' complains 'there is no rt on the path'

FREE=100000 call "$checkout/bugassist" run
check 'little room: status 70' ends_with 70
check 'little room: it says how much' complains "$TMPDIR has 97 MB free, and proving wants 3000"
FREE=4500000 call "$checkout/bugassist" run
check 'less than 5000 MB: it says so' complains 'less than 5000 the toolchain keeps nothing'
check 'less than 5000 MB: it proves' prints 'the report'
fresh
TMPDIR=$trials/nowhere call "$checkout/bugassist" run
check 'no folder for temporary files: status 70' ends_with 70
check 'no folder for temporary files: it says so' complains 'no folder can be made in'
mkdir "$trials/tiny"
if mount -t tmpfs -o size=64k tmpfs "$trials/tiny" 2>/dev/null; then
    FREE='' TMPDIR=$trials/tiny call "$checkout/bugassist" run
    check 'a tiny disk: status 70' ends_with 70
    check 'a tiny disk: it says so' complains 'and proving wants 3000'
    TMPDIR=$trials/tiny call "$checkout/bugassist" run
    check 'a disk that fills up: status 70' ends_with 70
    check 'a disk that fills up: it says so' complains 'the sources cannot be copied'
    check 'a disk that fills up: the folder is removed' [ -z "$(ls -A "$trials/tiny")" ]
fi
check 'where it cannot prove, rt ci is not called' proofs_are 0

# HOW MANY CHECKS AT A TIME

is_number_of_processors() {
    jobs=$(sed -n 's/^jobs //p' "$CALLS" | tail -n 1)
    case $(cat /sys/fs/cgroup/memory.max 2>/dev/null) in
        [0-9]*) [ "$jobs" = none ] ;;
        *) [ "$jobs" -ge 1 ] && [ "$jobs" -le "$(nproc)" ] ;;
    esac
}
fresh
call "$checkout/bugassist" run
check 'RT_JOBS is at most the number of processors' is_number_of_processors
fresh
RT_JOBS=7 call "$checkout/bugassist" run
check 'RT_JOBS of the caller stays' grep -q -x 'jobs 7' "$CALLS"

# ON A TERMINAL

if script -qec true /dev/null >/dev/null 2>&1 </dev/null; then
    fresh
    SLEEP=0.2
    (cd "$trials/elsewhere" && script -qec "$checkout/bugassist run" /dev/null) >"$trials/err" 2>&1 </dev/null
    SLEEP=0
    lines=$(tr -d -c '\r' <"$trials/err" | wc -c)
    check 'on a terminal: the line is written anew' [ "$lines" -ge 3 ]
    check 'on a terminal: it tells the crates' complains ' of 13 crates, 0 min'
    answers 5 'refused: too large\n'
    (cd "$trials/elsewhere" && script -qec "$checkout/bugassist run p.c in.txt --bound 3" /dev/null) >"$trials/err" 2>&1 </dev/null
    check 'on a terminal: refusals are explained' complains 'p.c: too large: it has more than 20,000 units'
    (cd "$trials/elsewhere" && BUGASSIST_EXPLAIN=0 script -qec "$checkout/bugassist run p.c in.txt --bound 3" /dev/null) >"$trials/err" 2>&1 </dev/null
    check 'on a terminal: but not with BUGASSIST_EXPLAIN=0' [ "$(tr -d '\r' <"$trials/err")" = 'refused: too large' ]
    answers 0 'the report\n'
fi

# INSTALLING

: >"$CALLS"
(cd "$trials" && "$checkout/bugassist" --install installed) 2>"$trials/err"
check 'install: it says where' complains "installed as $trials/installed/bugassist"
check 'install: nothing is proved anew' proofs_are 0
mkdir "$trials/links"
ln -s ../installed/bugassist "$trials/links/ba"
mv "$checkout" "$checkout.away"
PATH=$trials/without_rt call "$trials/links/ba" run p.c
check 'installed: it runs by a link, without checkout and toolchain' prints 'the report'
check 'installed: nothing is said' is_silent
call "$trials/links/ba" --help
check 'installed: the help is there' grep -q '^usage:' "$trials/out"
answers 5 'refused: too large\n'
BUGASSIST_EXPLAIN=1 call "$trials/links/ba" run p.c in.txt --bound 3
check 'installed: refusals are explained' complains 'p.c: too large: it has more than 20,000 units'
call "$trials/links/ba" --install "$trials/again"
call "$trials/again/bugassist" run p.c
check 'installed: it installs again' ends_with 5
answers 0 'the report\n'
rm "$trials/installed/bugassist.files/program"
call "$trials/links/ba" run p.c
check 'installed: without its program it is not built' ends_with 70
check 'installed: without its program it says so' complains 'install bugassist again from a checkout'
mv "$checkout.away" "$checkout"
call "$checkout/bugassist" --install
check 'install: a folder has to follow' ends_with 2
call "$checkout/bugassist" --install "$checkout"
check 'install: not into a checkout' ends_with 70
fresh
call "$checkout/bugassist" --install "$trials/third"
check 'install: it proves where that is needed' proofs_are 1
call "$trials/third/bugassist" run
check 'install: and the copy runs' prints 'the report'

# HELP, VERSION, THE CLOCK

call "$checkout/bugassist" --version
check 'version' prints 'bugassist 1'
call "$checkout/bugassist" run -h
check 'help behind the mode' grep -q '^  bugassist --install FOLDER' "$trials/out"
LATE=1.5 BUGASSIST_PROGRESS=1 call "$checkout/bugassist" run p.c
check 'the clock: the seconds are told' complains 'bugassist: 1 s'
check 'the clock: the text is printed' prints 'the report'

# WHAT IS PRINTED STAYS BYTE BY BYTE

same_bytes() {
    call "$checkout/bugassist" localise p.c in.txt --bound 3
    cp "$trials/out" "$trials/plain"
    plain=$status
    BUGASSIST_EXPLAIN=1 call "$checkout/bugassist" localise p.c in.txt --bound 3
    check "$1: the bytes are the same" cmp -s "$trials/plain" "$ANSWER"
    check "$1: the bytes are the same with explanations" cmp -s "$trials/out" "$ANSWER"
    check "$1: the status is the same" ends_with "$plain"
}

answers 0 ''
same_bytes 'no byte'
answers 0 'no line feed at the end'
same_bytes 'no line feed'
answers 3 'refused: program, error 1.1 at 1:1\n\n\n'
same_bytes 'line feeds at the end'
answers 0 'a\0b\0\n\377\r\n'
same_bytes 'bytes 0'
head -c 300000 /dev/urandom >"$ANSWER"
same_bytes 'many bytes'

# The status of a call whose reader has gone, with a long text and with a short one.
status_without_reader() {
    (
        sleep 0.3
        "$checkout/bugassist" localise p.c in.txt --bound 3 2>"$trials/err"
        echo $? >"$trials/broken"
    ) | true
    cat "$trials/broken"
}
breaks() { [ "$(status_without_reader).$(BUGASSIST_EXPLAIN=1 status_without_reader)" = 12.12 ]; }
check 'a broken pipe: long' breaks
answers 0 'the report\n'
check 'a broken pipe: short' breaks
check 'a broken pipe: nothing is said' is_silent
if [ -w /dev/full ]; then
    BUGASSIST_EXPLAIN=1 "$checkout/bugassist" localise p.c in.txt --bound 3 >/dev/full 2>"$trials/err"
    status=$?
    check 'a full disk: status 12' ends_with 12
fi
# The standard streams are closed: the program meets open ones, and cannot print.
closed() {
    BUGASSIST_EXPLAIN=$1 "$checkout/bugassist" localise p.c in.txt --bound 3 <&- >&- 2>"$trials/err"
    status=$?
    check "closed streams$2: status 12" ends_with 12
    check "closed streams$2: nothing is said" is_silent
    [ ! -d /proc/self/fd ] || check "closed streams$2: the program has open ones" [ "$(cat "$WORDS.streams")" = 012 ]
    "$checkout/bugassist" localise p.c in.txt --bound 3 <&- >&- 2>&-
    status=$?
    check "closed streams$2, all: status 12" ends_with 12
    [ ! -d /proc/self/fd ] || check "closed streams$2, all: the program has open ones" [ "$(cat "$WORDS.streams")" = 012 ]
}
closed 0 ''
closed 1 ' with explanations'
"$checkout/bugassist" localise p.c in.txt --bound 3 <&- >"$trials/out" 2>"$trials/err"
check 'closed input alone: the text is printed' prints 'the report'
# The stack is raised up to a gigabyte, and the caller's hard limit stays.
# shellcheck disable=SC3045
{
    if [ "$(ulimit -H -s)" = unlimited ]; then
        (ulimit -S -s 8192; call "$checkout/bugassist" run)
        check 'stack: the soft limit is raised' [ "$(cat "$WORDS.stack")" = 1048576 ]
        (ulimit -S -s unlimited; call "$checkout/bugassist" run)
        check 'stack: none is lowered' [ "$(cat "$WORDS.stack")" = unlimited ]
    fi
    (ulimit -S -s 4096; ulimit -H -s 6000; call "$checkout/bugassist" run)
    check 'stack: no more than the hard limit' [ "$(cat "$WORDS.stack")" = 6000 ]
}
TMPDIR=$trials/nowhere BUGASSIST_EXPLAIN=1 call "$checkout/bugassist" localise p.c in.txt --bound 3
check 'no folder for temporary files: the text is printed' prints 'the report'
check 'explanations leave no file' is_clear

# WHAT A REFUSAL MEANS

cd "$trials/elsewhere" || exit 1
printf 'int main(int a) {\n\tint\tx;\n    x = a; /* \303\244 */ y = 1;\n}\n' >p.c
printf '1\n 2  x3 4\n' >in.txt
printf '1 fixed\n2 many\n' >w.txt
printf 'bugassist 1\nl 1 -2 0 7 0\n' >cert.txt
mkdir folder

# A call that ends so is explained by these lines; $1 is the status, $2 the text, $3 what is said, and the words follow.
explained() {
    answers "$1" "$2\n"
    says=$(printf "$3")
    wanted=$1
    shift 3
    BUGASSIST_EXPLAIN=1 call "$checkout/bugassist" "$@"
    check "explained: $says" complains_exactly "$says"
    check "explained, status $wanted" ends_with "$wanted"
    call "$checkout/bugassist" "$@"
    [ "$wanted" -eq 2 ] || check "not explained without a terminal: $says" is_silent
}

two_files() { explained "$@" localise p.c in.txt --bound 3; }

two_files 3 'refused: program, error 3.3 at 3:5' \
    'p.c:3:5: error 3.3: the name is not used as what it was declared, or what stands here is of a kind that cannot stand here\n    x = a; /* \303\244 */ y = 1;\n    ^'
two_files 3 'refused: program, error 1.3 at 2:6' 'p.c:2:6: error 1.3: this word of C is left out\n\tint\tx;\n\t   \t^'
two_files 3 'refused: program, error 3.1 at 3:21' \
    'p.c:3:21: error 3.1: no declaration in scope has this name or tag, or the function that is called has no definition\n    x = a; /* \303\244 */ y = 1;\n                   ^'
two_files 3 'refused: program, error 2.1 at end' 'p.c: at the end: error 2.1: more has to follow the last token'
two_files 3 'refused: program, error 3.5 at end' 'p.c: at the end: error 3.5: main has no definition'
for code in 1.1 1.2 1.3 1.4 1.5 1.6 1.7 2.1 2.2 3.1 3.2 3.3 3.4 3.6 3.7 3.8 3.9; do
    answers 3 "refused: program, error $code at 1:5\\n"
    BUGASSIST_EXPLAIN=1 call "$checkout/bugassist" localise p.c in.txt --bound 3
    check "explained: error $code" grep -q "^p.c:1:5: error $code: [a-z].\{20\}" "$trials/err"
done
two_files 4 'refused: input, error 1 at number 3' \
    'in.txt:2:5: error 1: number 3: this is no number; a number is digits, with a hyphen before them where it is negative\n 2  x3 4\n    ^'
two_files 4 'refused: input, error 2 at number 1' 'in.txt:1:1: error 2: number 1: the number is outside the type of its parameter\n1\n^'
two_files 4 'refused: input, error 3' \
    'in.txt: error 3: there are too few or too many numbers: main takes one for each parameter and one for each element of an array'
ranked() { explained "$@" rank p.c in.txt --bound 3; }
ranked 4 'refused: inputs, error 1 at number 2, line 2' \
    'in.txt:2:5: error 1: number 2: this is no number; a number is digits, with a hyphen before them where it is negative\n 2  x3 4\n    ^'
ranked 4 'refused: inputs, error 3, line 2' \
    'in.txt:2: error 3: there are too few or too many numbers: main takes one for each parameter and one for each element of an array\n 2  x3 4'
ranked 4 'refused: inputs, error 4' 'in.txt: error 4: no line has an input; blank lines and comments are none'
ranked 4 'refused: inputs, error 5, line 1' \
    'in.txt:1: error 5: this is one input too many; at most 64 lines have one\n1'
repaired() { explained "$@" repair p.c w.txt in.txt --bound 3; }
repaired 4 'refused: failing, error 1 at number 2' \
    'w.txt:1:3: error 1: number 2: this is no number; a number is digits, with a hyphen before them where it is negative\n1 fixed\n  ^'
repaired 4 'refused: passing, error 3, line 2' \
    'in.txt:2: error 3: there are too few or too many numbers: main takes one for each parameter and one for each element of an array\n 2  x3 4'
repaired 17 'fails: line 2' \
    'in.txt:2: the program as written has to pass on this line: an assertion fails, it traps, or it goes beyond a bound; a higher --bound may help\n 2  x3 4'
two_files 5 'refused: too large' \
    'p.c: too large: it has more than 20,000 units, its size with calls and loops written out, with --all once for each input; a lower --bound helps, or a lower --depth in recursion'
two_files 6 'beyond bound at 1:5' \
    'p.c:1:5: beyond bound: a loop goes past --bound or a call past --depth; raise --bound (turns, at most 128) or --depth (frames, at most 32)\nint main(int a) {\n    ^'
explained 10 'refused: certificate, error 1 at line 2' \
    'cert.txt:2: error 1: a hint is the number of no live clause\nl 1 -2 0 7 0' check p.c in.txt cert.txt --bound=3
explained 10 'refused: certificate, error 21 at line 3' \
    'cert.txt:3: error 21: the certificate ends here, before a step that ends it or inside a line' check --bound 3 p.c in.txt cert.txt
for code in 1 2 3 4 5 6 7 8 9 10 11 12 13 14 20 21; do
    answers 10 "refused: certificate, error $code at line 2\\n"
    BUGASSIST_EXPLAIN=1 call "$checkout/bugassist" check p.c in.txt cert.txt --bound 3
    check "explained: certificate, error $code" grep -q "^cert.txt:2: error $code: [a-z].\{20\}" "$trials/err"
done
explained 11 'refused: program cannot be read' 'q.c: the program cannot be read: there is no such file' run q.c in.txt --bound 3
explained 11 'refused: input cannot be read' 'folder: the input cannot be read: it is a folder' run p.c folder --bound 3
explained 11 'refused: weights cannot be read' 'w: the weights cannot be read: there is no such file' \
    localise --weights=w p.c in.txt --bound 3
two_files 14 'refused: program is longer than 65536 bytes' 'p.c: the file has more bytes than may be read, which are 65536'
explained 15 'refused: weights, line 2' \
    'w.txt:2: error: a line is the number of a line of the program and then a weight from 1 to 1000 or fixed; no line is named twice\n2 many' \
    localise p.c in.txt --weights w.txt --bound 3
two_files 7 'no repair' ''
answers 3 'refused: program, error 1.1 at 1:1\n'
echo '@' | BUGASSIST_EXPLAIN=1 call "$checkout/bugassist" run /dev/stdin in.txt --bound 3
check 'explained: a program from a pipe' complains_exactly '/dev/stdin:1:1: error 1.1: no token begins with this byte'
two_files 0 'accepted: located' ''

words() {
    says=$1
    shift
    explained 2 'refused: words' "bugassist: $says\nbugassist: see bugassist --help" "$@"
}
words 'no word is given: the first word is a mode: localise, check, run, rank, repair or sample'
words "'mend': this is no mode: the first word is localise, check, run, rank, repair or sample" mend p i
words 'PASSING: this has to be given; the mode takes PROGRAM FAILING PASSING' repair p i --bound 3
words '--weights: this is no option of the mode, whose options are --bound --depth' run p i --bound 3 --weights w
words '-b: this is no option of the mode, whose options are --bound --depth' run p i -b 3
words '--: this is no option of the mode, whose options are none' sample --
words '--bound: a value has to follow, which does not begin with a hyphen' run p i --bound
words '--bound: a value has to follow, which does not begin with a hyphen' run p i --bound --depth 3
words '--bound 129: the value is a whole number of at most seven digits, from 1 to 128' run p i --bound 129
words '--depth 3x: the value is a whole number of at most seven digits, from 1 to 32' run p i --bound 3 --depth=3x
words '501: the value is a whole number of at most seven digits, from 1 to 500' sample 501
words '--restart Luby: the value is luby or steady' localise p i --bound 3 --restart Luby
words '--bound: the option has to be given: the turns of each entry of a loop, 1 to 128' localise p.c in.txt
words '--bound: an option stands at most once' run p i --bound 3 --bound=3
words '--places: the option does not stand beside --cert: no certificate is written for places' localise p i --bound 3 --cert c --places
words '--places=1: this is no option of the mode, whose options are --bound --depth --weights --conflicts --sets --cert --restart --runs --places --all' \
    localise p i --bound 3 --places=1
words '--places: the option does not stand beside --all: an execution belongs to one input' localise p i --bound 3 --all --places
words 'INPUT: this has to be given; the mode takes PROGRAM INPUT' run p --bound 3
words 'c: this is one too many; the mode takes PROGRAM INPUT' run p i c --bound 3
words "'': no word may be empty" run p '' --bound 3

# The fault of each list of words that the repository's own trials refuse is found.
answers 2 'refused: words\n'
list=$repository/crates/trials/data/words.txt
while IFS= read -r line; do
    case $line in
        'bugassist '*--help* | 'bugassist '*-h | 'bugassist '*--version) continue ;;
        'bugassist '*) ;;
        *) continue ;;
    esac
    left="${line#bugassist } "
    set --
    while [ -n "$left" ]; do
        set -- "$@" "${left%% *}"
        left=${left#* }
    done
    BUGASSIST_EXPLAIN=1 call "$checkout/bugassist" "$@"
    check "a fault is found in: $line" [ "$(wc -l <"$trials/err")" -eq 2 ]
done <"$list"

echo "$passed passed, $failed failed"
[ "$failed" -eq 0 ]
