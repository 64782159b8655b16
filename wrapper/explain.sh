# Says what a refusal means: `explain`, with the line that the program printed and the words of the call. The sentences
# stand in sentences.txt. The file bugassist reads this one.

# THE WORDS, by the rules of the program. The first fault stands in `fault` as a kind of sentence, with the word in
# `what` and the rest of the sentence in `more`. Where there is none, the names of the files are known.

# What a mode takes: the options with a value, those without one, and the files.
set_usage() {
    plain=
    valued='bound depth'
    files='PROGRAM INPUT'
    case $1 in
        localise)
            valued='bound depth weights conflicts sets cert restart'
            plain='runs places all'
            ;;
        check)
            valued='bound depth weights conflicts sets'
            plain=all
            files='PROGRAM INPUT CERT'
            ;;
        run) ;;
        rank)
            valued='bound depth weights conflicts sets restart'
            files='PROGRAM INPUTS'
            ;;
        repair)
            valued='bound depth weights conflicts sets restart'
            files='PROGRAM FAILING PASSING'
            ;;
        sample)
            valued=
            files=N
            ;;
        *) return 1 ;;
    esac
}

is_among() {
    case $1 in
        '' | *' '*) return 1 ;;
    esac
    case " $2 " in
        *" $1 "*) return 0 ;;
    esac
    return 1
}

# Notes a fault: the kind of its sentence, the word, and the rest of the sentence.
blame() {
    fault=$1 what=$2 more=${3-}
}

blame_option() {
    has=
    for name in $valued $plain; do
        has="$has --$name"
    done
    blame 'words option' "$1" "${has:- none}"
}

# A number is one to seven digits.
is_number_to() {
    case $1 in
        '' | *[!0-9]* | ????????*) return 1 ;;
    esac
    [ "$1" -ge 1 ] && [ "$1" -le "$2" ]
}

# Looks at the value of an option, or of N, by its name.
read_value() {
    case $1 in
        bound) most=128 ;;
        depth) most=32 ;;
        conflicts) most=1000000 ;;
        sets) most=10000 ;;
        N) most=500 ;;
        restart)
            is_among "$2" 'luby steady' || blame 'words restart' "--restart $2"
            return
            ;;
        weights)
            weights_file=$2
            return
            ;;
        *) return ;;
    esac
    is_number_to "$2" "$most" || blame 'words number' "$3$2" " $most"
}

# Notes that an option stands here, by its name without hyphens.
note_option() {
    ! is_among "$1" "$given" || blame 'words twice' "--$1"
    given="$given $1"
}

# Looks at an option with a value, and at the word behind it.
read_option() {
    note_option "$1"
    [ -z "$fault" ] || return
    case $2 in
        '' | -*) blame 'words no value' "--$1" ;;
        *) read_value "$1" "$2" "--$1 " ;;
    esac
}

# Notes the name of a file in its place.
read_file() {
    next=${wanted%% *}
    case $next in
        PROGRAM) program_file=$1 ;;
        INPUT | INPUTS | FAILING) input_file=$1 ;;
        PASSING) passing_file=$1 ;;
        CERT) certificate_file=$1 ;;
        N) read_value N "$1" '' ;;
        *) blame 'words too many' "$1" " $files" ;;
    esac
    wanted=${wanted#"$next"}
    wanted=${wanted# }
}

# Looks at the words behind the mode, up to the first fault.
read_later_words() {
    while [ $# -gt 0 ] && [ -z "$fault" ]; do
        word=$1
        shift
        name=${word%%=*}
        name=${name#--}
        # An option with its value in one word is two words.
        if [ "${word%%=*}" = "--$name" ] && [ "$word" != "--$name" ] && is_among "$name" "$valued"; then
            set -- "${word#*=}" "$@"
            word=--$name
        fi
        case $word in
            '') blame 'words empty' "''" ;;
            "--$name")
                if is_among "$name" "$valued"; then
                    read_option "$name" "${1-}"
                    [ $# -eq 0 ] || shift
                elif is_among "$name" "$plain"; then
                    note_option "$name"
                else
                    blame_option "$word"
                fi
                ;;
            -*) blame_option "$word" ;;
            *) read_file "$word" ;;
        esac
    done
}

read_words() {
    fault='' given='' program_file='' input_file='' passing_file='' certificate_file='' weights_file=''
    if [ $# -eq 0 ]; then
        blame 'words none' 'no word is given'
    elif ! set_usage "$1"; then
        blame 'words mode' "'$1'"
    else
        wanted=$files
        shift
        read_later_words "$@"
        if [ -n "$fault" ]; then
            return
        elif [ -n "$wanted" ]; then
            blame 'words missing' "${wanted%% *}" " $files"
        elif is_among bound "$valued" && ! is_among bound "$given"; then
            blame 'words bound' --bound
        elif is_among places "$given" && is_among cert "$given"; then
            blame 'words places' --places
        elif is_among places "$given" && is_among all "$given"; then
            blame 'words places all' --places
        fi
    fi
}

# EXPLAINING

# The sentence of this kind and, where there are several, this number of an error.
sentence() {
    sed -n "s/^$1: //p" "$parts/sentences.txt"
}

tell() {
    printf '%s\n' "$1"
}

# Says what is wrong at a line and a column of a file, as FILE:LINE:COLUMN, with the line and a mark under the column.
# Columns count bytes: a tab before the column stays a tab, and of a character of several bytes one stays.
point() {
    tell "$1:$2: $3"
    [ -f "$1" ] || return
    LC_ALL=C awk -v line="${2%%:*}" -v column="${2#*:}" '
        NR == line {
            mark = substr($0, 1, column - 1)
            gsub(/[\200-\277]/, "", mark)
            gsub(/[^\t]/, " ", mark)
            gsub(/[\001-\010\013-\037\177]/, " ")
            print
            print mark "^"
            exit
        }
    ' <"$1"
}

# Says what is wrong in a line of a file, with the first bytes of the line.
point_at_line() {
    tell "$1:$2: $3"
    [ -f "$1" ] || return
    sed -n "$2{p;q;}" <"$1" | LC_ALL=C tr '\001-\010\013-\037\177' '[ *]' | LC_ALL=C cut -b 1-120
}

# The line and column of a number of the input, counted from 1; or of a number of one line, where that is named.
place_of_number() {
    LC_ALL=C awk -v wanted="$2" -v line="${3-}" 'line == "" || NR == line {
        rest = $0
        column = 1
        while (match(rest, /[^ \t\v\f\r]+/)) {
            if (++numbers == wanted) {
                print NR ":" column + RSTART - 1
                exit
            }
            column += RSTART + RLENGTH - 1
            rest = substr(rest, RSTART + RLENGTH)
        }
    }' <"$1"
}

explain_program() {
    code=${1#*error }
    code=${code%% *}
    where=${1##* at }
    if [ "$where" = end ]; then
        tell "$program_file: at the end: error $code: $(sentence "program end $code")"
    else
        point "$program_file" "$where" "error $code: $(sentence "program $code")"
    fi
}

explain_input() {
    code=${1#*error }
    code=${code%% *}
    number=${1##* }
    where=
    [ "$code" = 3 ] || [ ! -f "$input_file" ] || where=$(place_of_number "$input_file" "$number")
    if [ -n "$where" ]; then
        point "$input_file" "$where" "error $code: number $number: $(sentence "input $code")"
    else
        tell "$input_file: error $code: $(sentence "input $code")"
    fi
}

explain_inputs() {
    rest=${1#*error }
    code=${rest%%[ ,]*}
    line=${rest##*line }
    kind=input
    case $code in
        4)
            tell "$input_file: error 4: $(sentence 'inputs 4')"
            return
            ;;
        5) kind=inputs ;;
    esac
    where=
    case $rest in
        *' at number '*)
            number=${rest#*number }
            number=${number%%,*}
            [ ! -f "$input_file" ] || where=$(place_of_number "$input_file" "$number" "$line")
            ;;
    esac
    if [ -n "$where" ]; then
        point "$input_file" "$where" "error $code: number $number: $(sentence "input $code")"
    else
        point_at_line "$input_file" "$line" "error $code: $(sentence "$kind $code")"
    fi
}

explain_certificate() {
    code=${1#*error }
    code=${code%% *}
    point_at_line "$certificate_file" "${1##* }" "error $code: $(sentence "certificate $code")"
}

# The name of the file that the program calls by this word.
name_of() {
    case $1 in
        program) tell "$program_file" ;;
        input | inputs | failing) tell "$input_file" ;;
        passing) tell "$passing_file" ;;
        weights) tell "$weights_file" ;;
        certificate) tell "$certificate_file" ;;
    esac
}

explain_unreadable() {
    name=$(name_of "$1")
    kind=other
    [ ! -d "$name" ] || kind=folder
    [ -e "$name" ] || kind=none
    case $1 in
        failing) what='failing input' ;;
        passing) what='file of passing inputs' ;;
        *) what=$1 ;;
    esac
    tell "$name: the $what cannot be read: $(sentence "unreadable $kind")"
}

# Says on standard error what the program's answer means, a line that it printed, where it is a refusal.
explain() {
    answer=$1
    shift
    read_words "$@"
    rest=${answer#refused: }
    case $answer in
        'refused: words') [ -z "$fault" ] || tell "bugassist: $what: $(sentence "$fault")$more" ;;
        'refused: program, error '*) explain_program "$answer" ;;
        'refused: input, error '* | 'refused: failing, error '*) explain_input "$answer" ;;
        'refused: inputs, error '*) explain_inputs "$answer" ;;
        'refused: passing, error '*)
            input_file=$passing_file
            explain_inputs "$answer"
            ;;
        'fails: line '*) point_at_line "$passing_file" "${answer##* }" "$(sentence fails)" ;;
        'refused: too large') tell "$program_file: too large: $(sentence 'too large')" ;;
        'beyond bound at '*)
            rest=${answer#beyond bound at }
            point "$program_file" "${rest%: line *}" "beyond bound: $(sentence 'beyond bound')"
            ;;
        'refused: certificate, error '*) explain_certificate "$answer" ;;
        'refused: '*' cannot be read') explain_unreadable "${rest%% *}" ;;
        'refused: '*' is longer than '*' bytes')
            rest=${rest% bytes}
            tell "$(name_of "${rest%% *}"): $(sentence 'too long') ${rest##* }"
            ;;
        'refused: weights, line '*) point_at_line "$weights_file" "${answer##* }" "error: $(sentence weights)" ;;
    esac >&2
}
