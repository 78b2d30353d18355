# The common functions of the checks in shell. They count the passed and failed verdicts, report the failed ones, and run all or some parts of a
# check. A check reads this file with `.`, after it has set `top`, the folder of the repository.
# shellcheck shell=sh disable=SC1090,SC2154

check=checks/${0##*/}
passed=0
failed=0

# Changes to the top folder. Sets `mcs4` to the program that the check and the tools start. Makes a temporary folder, `folder`, in memory if possible,
# and removes it when the check ends. Standard input is empty, unless it is redirected.
begin_check() {
    cd "$top"
    mcs4=$(checks/lib/program)
    export MCS4="$mcs4"
    parent=${TMPDIR:-/tmp}
    if [ -z "${TMPDIR:-}" ] && [ -d /dev/shm ] && [ -w /dev/shm ]; then parent=/dev/shm; fi
    folder=$(mktemp -d "$parent/checks_${0##*/}.XXXXXX")
    trap 'rm -rf -- "$folder"' EXIT
    trap 'exit 1' HUP INT TERM
    exec < /dev/null
}

# Counts a failed verdict, and prints it. Argument: the message.
count_failure() {
    failed=$((failed + 1))
    echo "$check: $1" >&2
}

# Compares a value with the expected one, and counts the verdict. Arguments: the value, the expected value, and a description.
verdict() {
    if [ "$1" = "$2" ]; then
        passed=$((passed + 1))
    else
        count_failure "$3: < actual, > expected"
        actual=$(mktemp)
        printf '%s\n' "$1" > "$actual"
        printf '%s\n' "$2" | diff "$actual" - | sed 30q >&2
        rm -f -- "$actual"
    fi
}

# Compares two files, and counts the verdict. Arguments: the file, the expected file, and a description.
verdict_of_files() {
    if cmp -s -- "$1" "$2"; then
        passed=$((passed + 1))
    else
        count_failure "$3: < actual, > expected"
        diff -- "$1" "$2" | sed 30q >&2
    fi
}

# Runs a client that prints lines `ok ..` and `failed: ..`, and counts them as verdicts. A status other than 0 counts as one more failed verdict.
# Arguments: a file for the client's output, and the command.
run_client() {
    report=$1
    shift
    status=0
    "$@" > "$report" || status=$?
    sed -n '/^failed: /p' "$report" >&2
    passed=$((passed + $(grep -c '^ok ' "$report" || :)))
    failed=$((failed + $(grep -c '^failed: ' "$report" || :)))
    if [ "$status" -ne 0 ]; then failed=$((failed + 1)); fi
}

# Prints the output and the errors of a command, and then its exit status.
outcome() {
    status=0
    "$@" 2>&1 || status=$?
    echo "status $status"
}

# Checks that a command is rejected. Arguments: its status and its message, then the command.
check_rejected() {
    expected="$2
status $1"
    shift 2
    verdict "$(outcome "$@")" "$expected" "$*"
}

# Checks that a command with wrong arguments prints a message and its usage, with status 2. Arguments: the message, and the command `./mcs4 NAME ..`.
check_usage_error() {
    expected="$3: $1
usage: mcs4 $3
status 2"
    shift
    verdict "$(outcome "$@" | shorten_usage)" "$expected" "$*"
}

# Copies standard input to standard output. Shortens the usage of a command to its first line, up to the name of the command.
shorten_usage() {
    sed '/^       mcs4 /d; s/^\(usage: mcs4 [a-z]*\).*/\1/'
}

# Serves the lines from standard input in a new session (`new_session`) or in an existing one (`continue_session`). Argument: the name of the
# session's file in the folder, without .mcs. The answers are written to the file `answers`.
new_session() {
    rm -f -- "$folder/$1.mcs"
    "$mcs4" new "$folder/$1.mcs" > "$folder/answers"
}

continue_session() {
    "$mcs4" open "$folder/$1.mcs" > "$folder/answers"
}

# Runs the parts of a check that the arguments name, or all parts. The parts are the scripts in the check's folder in checks/lib/. Each part runs in a
# subshell, and with its own folder below the check's temporary folder (`check_folder`).
run_parts() {
    parts=$(cd "checks/lib/${0##*/}" && echo *.sh | sed 's/\.sh//g')
    for part in "$@"; do
        case " $parts " in
        *" $part "*) ;;
        *)
            echo "usage: $check [PART ..]; the parts are $parts" >&2
            exit 2
            ;;
        esac
    done
    # shellcheck disable=SC2086
    if [ $# -eq 0 ]; then set -- $parts; fi
    check_folder=$folder
    for part in "$@"; do run_part; done
}

# Runs one part, `part`, and adds its verdicts.
run_part() {
    set +e
    (
        set -e
        trap 'exit 1' HUP INT TERM
        folder=$check_folder/$part
        mkdir -- "$folder"
        passed=0
        failed=0
        . "./checks/lib/${0##*/}/$part.sh"
        echo "$passed $failed" > "$folder.counted"
    )
    status=$?
    set -e
    if [ -e "$check_folder/$part.counted" ]; then
        read -r part_passed part_failed < "$check_folder/$part.counted"
        passed=$((passed + part_passed))
        failed=$((failed + part_failed))
    else
        count_failure "the part $part ended with status $status"
    fi
    rm -rf -- "${check_folder:?}/$part"
}

# Prints the numbers of passed and failed verdicts, and exits: with status 0 if none failed, otherwise with 1.
end_check() {
    echo "$passed passed, $failed failed"
    exit $((failed > 0))
}
