# Checks that each command rejects wrong arguments with status 2 and its usage, and that -h means --help. Also checks mistyped commands, and options.
# shellcheck shell=sh

new_session session < $calculator/quotient.txt
session=$folder/session.mcs
program=$calculator/calculator.asm
commands=$(./mcs4 help | sed -n 's/^  \([a-z]\{3,9\}\) .*/\1/p')
for command in $commands; do
    help_outcome=$(outcome ./mcs4 "$command" --help)
    verdict "$(outcome ./mcs4 "$command" -h)" "$help_outcome" "mcs4 $command -h"
    verdict "$(outcome ./mcs4 help "$command")" "$help_outcome" "mcs4 help $command"
done
# Tries an empty word, a word, a number with a sign, a number with an exponent, a number below the minimum, and a number above the maximum.
for wrong in "" x -1 1e3 0 100000001; do
    case $wrong in
    -1) for tool in trace wave; do check_usage_error "there is no option -1" ./mcs4 "$tool" "$session" "$wrong"; done ;;
    *)
        check_usage_error "CYCLES: '$wrong' is not a decimal number from 1 to 100000" ./mcs4 trace "$session" "$wrong"
        check_usage_error "CYCLES: '$wrong' is not a decimal number from 1 to 10000000" ./mcs4 wave "$session" "$wrong"
        ;;
    esac
    case $wrong in '' | -1) ;; *) check_usage_error "N: '$wrong' is not a decimal number from 1 to 10000" ./mcs4 trace --last "$wrong" "$session" 5 ;; esac
    case $wrong in -1) continue ;; esac
    check_usage_error "N: '$wrong' is not a decimal number from 1 to 99999" ./mcs4 back "$session" "$wrong"
    check_usage_error "CYCLES: '$wrong' is not a decimal number from 1 to 100000000" ./mcs4 cover --session "$session" "$wrong" "$program"
    check_usage_error "CYCLES: '$wrong' is not a decimal number from 1 to 100000000" ./mcs4 profile --session "$session" "$wrong" "$program"
    case $wrong in '') continue ;; esac
    check_usage_error "CYCLES of --down: '$wrong' is not a decimal number from 1 to 100000" ./mcs4 keys --down "$wrong" $lock/board.toml 1
    check_usage_error "CYCLES of --up: '$wrong' is not a decimal number from 1 to 100000" ./mcs4 keys --up "$wrong" $lock/board.toml 1
done
for option in seconds:86400 jobs:64 seed:99999999; do
    name=$(printf '%s' "${option%:*}" | tr a-z A-Z)
    for wrong in x 0 100000000; do
        check_usage_error "$name: '$wrong' is not a decimal number from 1 to ${option#*:}" ./mcs4 explore $lock/board.toml $lock/lock.asm $lock/lock.props "--${option%:*}" "$wrong"
    done
done
check_usage_error "ADDRESS is 0 to 4095, decimal or with 0x" ./mcs4 rom load none.bin 4096
check_usage_error "ADDRESS is 0 to 4095, decimal or with 0x" ./mcs4 rom load none.bin 12H
for wrong in "x 1" "0 1x"; do
    # shellcheck disable=SC2086
    check_usage_error "FIRST and COUNT are numbers, decimal or with 0x" ./mcs4 rom ask $wrong
done
for wrong in "0 0" "4096 1" "4000 97"; do
    # shellcheck disable=SC2086
    check_usage_error "FIRST is 0 to 4095, COUNT is at least 1, and 4096 is the address after the last one" ./mcs4 rom save $wrong
done
check_usage_error "FIRST is at least 1, and LAST is not before it" ./mcs4 cycles 3 2
for arguments in "trace::10" "wave::10" "back:" "import:" "listing:" "explain:" "resume::$session" "test::$program:$lock/lock.test"; do
    tool=${arguments%%:*}
    (
        IFS=:
        # shellcheck disable=SC2086
        set -- ${arguments#*:}
        if [ $# -eq 0 ]; then set -- ''; fi
        outcome ./mcs4 "$tool" "$@" | shorten_usage
    ) > "$folder/printed"
    verdict "$(cat "$folder/printed")" "$tool: an argument is empty; it names a file
usage: mcs4 $tool
status 2" "$tool with an empty argument"
done
# Checks that the correct command is suggested for a mistyped command, with and without `help`. The mistyped commands have capitals, or letters that
# are wrong, missing, extra or exchanged.
for pair in TEST:test tesst1:test tset:test tes:test testt:test tast:test lisitng:listing hlep:help opne:open ls:lsp; do
    word=${pair%:*}
    check_rejected 2 "mcs4: there is no command $word; did you mean ${pair#*:}? mcs4 help lists the commands" ./mcs4 "$word"
    check_rejected 2 "mcs4: there is no command $word; did you mean ${pair#*:}? mcs4 help lists the commands" ./mcs4 help "$word"
done
for word in frobnicate tt -x; do
    check_rejected 2 "mcs4: there is no command $word; mcs4 help lists the commands" ./mcs4 "$word"
done
# Checks options: they can be anywhere, and `--` ends them. A missing value and an extra value are errors. For a mistyped option, the correct option
# is suggested.
verdict "$(outcome ./mcs4 listing $lock/lock.asm --names)" "$(outcome ./mcs4 listing --names $lock/lock.asm)" "an option after the arguments"
verdict "$(outcome ./mcs4 listing --folder $lock --labels)" "$(outcome ./mcs4 listing -C $lock --labels)" "a long option and a short one"
verdict "$(outcome ./mcs4 listing "-C$lock" --labels)" "$(outcome ./mcs4 listing "--folder=$lock" --labels)" "options with their values"
check_rejected 1 "listing: cannot read --names: there is no such file" ./mcs4 listing -- --names
cp $lock/lock.asm "$folder/--names"
verdict "$(cd "$folder" && outcome "$top/mcs4" listing --labels -- --names)" "$(outcome ./mcs4 listing --labels $lock/lock.asm)" "a file whose name looks like an option"
check_usage_error "there is no option --nmaes; did you mean --names?" ./mcs4 listing --nmaes $lock/lock.asm
check_usage_error "there is no option --frobnicate" ./mcs4 listing --frobnicate $lock/lock.asm
check_usage_error "there is no option -n" ./mcs4 listing -n $lock/lock.asm
check_usage_error "--names takes no value" ./mcs4 listing --names=3 $lock/lock.asm
check_usage_error "--names is given twice" ./mcs4 listing --names --names $lock/lock.asm
check_usage_error "--names and --labels cannot be combined" ./mcs4 listing --names --labels $lock/lock.asm
for arguments in "-C $lock" "--seconds 3" "--jobs 2" "--seed 4" --allow-model; do check_usage_error "--merge and ${arguments%% *} cannot be combined" ./mcs4 explore $arguments --merge x; done
check_usage_error "FOLDER is missing after -C" ./mcs4 listing -C
check_usage_error "FOLDER is missing after --folder" ./mcs4 listing --folder --names
check_usage_error "SEED: '-1' is not a decimal number from 1 to 99999999" ./mcs4 explore --seed -1
check_usage_error "'x' is one argument too many" ./mcs4 listing $lock/lock.asm x
for name in lsp dap; do check_usage_error "'x' is one argument too many" ./mcs4 $name --stdio x; done
