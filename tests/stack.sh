#!/bin/sh
# Runs a built program on the deepest texts of its profile, with half of the usual stack.
#
#     sh tests/stack.sh PROGRAM [KILOBYTES [WORD]]
#
# PROGRAM is the program itself, as the command bugassist leaves it in out/, and not the command. KILOBYTES is the limit on
# stack, 4096 if it is not given. With WORD only the texts whose names have it are tried.
#
# In each text a function calls itself from inside as many constructs of one kind as the limits of programs allow, and its
# frames are 32 with that of main. Each is run, localised (with one conflict and a certificate) and its certificate checked.
# A line tells how many constructs there were and the statuses: 139 is an end for want of stack. The last line is 'N passed,
# M failed'; a text passes whose statuses the README has. It takes some minutes.

program=${1:?PROGRAM is missing}
kilobytes=${2-4096}
word=${3-}
case $program in /*) ;; *) program=$PWD/$program ;; esac
texts=$(mktemp -d) || exit 1
trap 'rm -rf "$texts"' EXIT
trap 'exit 1' INT TERM HUP
cd "$texts" || exit 1
echo 30 >input

passed=0
failed=0

# THE TEXTS

# A text so many times.
repeated() {
    awk -v count="$1" -v text="$2" 'BEGIN { while (count-- > 0) printf "%s", text }'
}

# The program whose function f calls itself inside these layers, outermost first. Each layer is a count, what stands before
# and what stands behind; where the count is the word `most` it is the first argument.
write_text() {
    most=$1
    shift
    before='' behind=''
    while [ $# -gt 0 ]; do
        count=$1
        [ "$count" != most ] || count=$most
        before=$before$(repeated "$count" "$2")
        behind=$(repeated "$count" "$3")$behind
        shift 3
    done
    cat >text.c <<END
int a[2];
int g(int x) { return x; }
char h(char x) { return x; }
int two(int x, int y) { return x + y; }
int array(int b[2], int x) { return x; }
int f(int n) { int k; unsigned u; k = 0; u = 1; if (n == 0) return 1; $before f(n - 1) $behind return 0; }
int main(int n) { int r; r = f(n); assert(r == 123456); return 0; }
END
}

# CALLS

# The status of a call, with the limit on stack and 3 GB of memory.
status_of() {
    mode=$1
    shift
    (
        # shellcheck disable=SC3045
        ulimit -S -s "$kilobytes" && ulimit -S -v 3000000 || exit 99
        exec "$program" "$mode" text.c input "$@" --bound 1 --depth 32
    ) >output 2>/dev/null
    echo $?
}

# Whether the text with so many constructs is within the limits.
is_accepted() {
    write_text "$@"
    status=$(status_of run)
    [ "$status" -ne 3 ] && [ "$status" -ne 5 ]
}

# The largest number of constructs within the limits.
largest() {
    low=0 high=128
    while [ $((high - low)) -gt 1 ]; do
        middle=$(((low + high) / 2))
        if is_accepted $middle "$@"; then low=$middle; else high=$middle; fi
    done
}

# Tries the deepest text of these layers.
deepest() {
    name=$1
    shift
    case $name in *"$word"*) ;; *) return ;; esac
    largest "$@"
    write_text "$low" "$@"
    run=$(status_of run)
    rm -f certificate
    localise=$(status_of localise --conflicts 1 --cert certificate)
    check='none'
    [ ! -s certificate ] || check=$(status_of check certificate --conflicts 1)
    verdict=passed
    for status in $run $localise $check; do
        case $status in [0-9] | 1[0-5] | none) ;; *) verdict=FAILED ;; esac
    done
    if [ $verdict = passed ]; then passed=$((passed + 1)); else failed=$((failed + 1)); fi
    echo "$verdict: $low of $name: run $run, localise $localise, check $check"
}

# EXPRESSIONS

deepest 'parentheses' 1 'return ' ';' most '(' ')'
deepest '-' 1 'return ' ';' most '- ' ''
deepest '!' 1 'return ' ';' most '!' ''
deepest '! of unsigned' 1 'return ' ';' most '!(unsigned)' ''
deepest '+' 1 'return ' ';' most '+ ' ''
deepest 'casts' 1 'return ' ';' most '(char)' ''
deepest 'chains of +' 1 'return ' ';' most '' ' + n'
deepest 'chains of *' 1 'return ' ';' most '' ' * n'
deepest 'chains of <, converted' 1 'return ' ';' most '' ' < u'
deepest 'chains of &&' 1 'return ' ';' most '' ' && n'
deepest 'chains of ||' 1 'return ' ';' most '' ' || k'
deepest '+ to the right' 1 'return ' ';' most 'n + (' ')'
deepest '< to the right, converted' 1 'return ' ';' most 'u < (' ')'
deepest '&& to the right' 1 'return ' ';' most 'n && (' ')'
deepest '|| to the right' 1 'return ' ';' most 'k || (' ')'
deepest '?: that test' 1 'return ' ';' most '(' ' ? 1 : 2)'
deepest '?: on the left' 1 'return ' ';' most 'n ? ' ' : 0'
deepest '?: on the right' 1 'return ' ';' most 'k ? 0 : ' ''
deepest 'elements' 1 'return ' ';' most 'a[' ']'
deepest 'arguments' 1 'return ' ';' most 'g(' ')'
deepest 'arguments, converted' 1 'return ' ';' most 'h(' ')'
deepest 'first arguments of two' 1 'return ' ';' most 'two(' ', n)'
deepest 'second arguments of two' 1 'return ' ';' most 'two(n, ' ')'
deepest 'arguments behind arrays' 1 'return ' ';' most 'array(a, ' ')'
deepest 'arguments and -' 1 'return ' ';' most 'g(- ' ')'
deepest 'arguments and ?:' 1 'return ' ';' most 'g(n ? ' ' : 0)'
deepest 'arguments and &&' 1 'return ' ';' most 'g(n && ' ')'
deepest 'arguments around a chain' 1 'return ' ';' most 'h(' ')' 48 '' ' < u'
deepest '&& around a chain' 1 'return ' ';' most 'n && (' ')' 48 '' ' < u'
deepest '?: around a chain' 1 'return ' ';' most 'n ? ' ' : 0' 48 '' ' < u'

# STATEMENTS

deepest 'blocks' most '{ ' ' }' 1 'return ' ';'
deepest 'if' most 'if (n) ' '' 1 'return ' ';'
deepest 'if with else' most 'if (n) ' ' else k = 1;' 1 'return ' ';'
deepest 'else if' most 'if (k) ; else ' '' 1 'return ' ';'
deepest 'while' most 'while (n) ' '' 1 'return ' ';'
deepest 'while with continue' most 'while (k == 0) { ' ' k = 1; continue; }' 1 'k = ' ';'
deepest 'while with break' most 'while (k == 0) { ' ' break; }' 1 'u = ' ';'
deepest 'do' most 'do ' ' while (0);' 1 'return ' ';'
deepest 'for' most 'for (; n; ) ' '' 1 'return ' ';'
deepest 'for with parts' most 'for (int i = 0; i < 1; i++) ' '' 1 'u = ' ';'
deepest 'switch' most 'switch (n) { default: ' ' }' 1 'return ' ';'
deepest 'switch with cases' most 'switch (k) { case 1: k = 2; case 0: ' ' default: ; }' 1 'u = ' ';'
deepest 'if and while' most 'if (n) while (n) ' '' 1 'return ' ';'
deepest 'declarations' most '{ int v = n; ' ' }' 1 'return ' ';'

# STATEMENTS AROUND EXPRESSIONS

# The deepest text of these layers, around a chain of operators of each precedence but the first.
deepest_around_chains() {
    deepest "$@" 9 '' ' || k' 11 '' ' && n' 11 '' ' | n' 11 '' ' ^ n' 11 '' ' & n' 11 '' ' == u' 11 '' ' < u' 11 '' ' << n' 11 '' ' + n'
}

for open in 'if (n) ' 'while (n) ' 'for (; n; ) ' 'switch (n) { default: ' 'do '; do
    close=''
    case $open in
    switch*) close=' }' ;;
    do*) close=' while (0);' ;;
    esac
    deepest_around_chains "${open}.. and chains" most "$open" "$close" 1 'return ' ';'
    deepest "${open}.. and converted chains" most "$open" "$close" 1 'return ' ';' 48 '' ' == u' 48 '' ' < u'
    deepest "${open}.. and arguments" 48 "$open" "$close" 1 'return ' ';' most 'h(' ')'
    deepest "${open}.. and arguments with chains" 48 "$open" "$close" 1 'return ' ';' most 'h(' ')' \
        12 '' ' | u' 12 '' ' == u' 12 '' ' < u' 12 '' ' + u'
done

# WHERE THE EXPRESSION STANDS

deepest_around_chains 'while (n), a condition' most 'while (n) ' '' 1 '{ if (' ') return 1; return 2; }'
deepest_around_chains 'while (n), a switch' most 'while (n) ' '' 1 '{ switch (' ') { case 5: k = 1; } return k; }'
deepest_around_chains 'while (n), an initialiser' most 'while (n) ' '' 1 '{ int v = ' '; return v; }'
deepest_around_chains 'while (n), an array' most 'while (n) ' '' 1 '{ int v[2] = { n, ' ' }; return v[0]; }'
deepest_around_chains 'while (n), an assignment' most 'while (n) ' '' 1 '{ k = ' '; return k; }'
deepest_around_chains 'while (n), a store' most 'while (n) ' '' 1 '{ a[n & 1] = ' '; return 1; }'
deepest_around_chains 'while (n), an index' most 'while (n) ' '' 1 '{ a[' '] = n; return 1; }'
deepest_around_chains 'while (n), printf' most 'while (n) ' '' 1 '{ printf("%d", ' '); return 1; }'
deepest_around_chains 'while (n), assert' most 'while (n) ' '' 1 '{ assert(' '); return 1; }'
deepest 'if (n), a call' most 'if (n) ' '' 1 '' '; return 1;'
deepest 'if (n), a call with arguments' 48 'if (n) ' '' 1 'g(' '); return 1;' most 'h(' ')'

echo "$passed passed, $failed failed"
[ $failed = 0 ]
