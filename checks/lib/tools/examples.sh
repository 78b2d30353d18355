# Checks that the scripts of the examples have the correct answers, and that the calculator shows the correct numbers. (checks/calculator tries random
# calculations.)
# shellcheck shell=sh

# Presses keys, and checks the number that the calculator shows after them.
check_calculation() {
    verdict "$(outcome examples/calculator/run "$1")" "$2
status 0" "keys $1"
}

for script in examples/*.txt examples/*/*.txt; do
    answers=${script%.txt}.answers
    if [ -f "$answers" ]; then
        verdict "$("$mcs4" new "$folder/session.mcs" < "$script")" "$(cat "$answers")" "$script"
        rm -f "$folder/session.mcs"
    fi
done
for key_presses in checks/lib/key_presses/*.keys; do
    awk -v script="$folder/script" -v answers="$folder/answers" -f checks/lib/key_presses.awk "$calculator/board.toml" "$calculator/quotient.txt" \
        "$calculator/quotient.answers" "$key_presses"
    "$mcs4" new "$folder/session.mcs" < "$folder/script" > "$folder/printed"
    verdict "$(outcome cmp "$folder/printed" "$folder/answers")" "status 0" "$key_presses"
    rm -f "$folder/session.mcs" "$folder/script" "$folder/answers" "$folder/printed"
done

board=$calculator/board.toml

# Presses keys of the calculator, and compares the number that it shows with the expected one. Some sessions are closed and reopened before that.
check_calculation "12*30=" 360
check_calculation "22/7=" 3.1428571
check_calculation "1 2 + 3 0 =" 42
check_calculation "12-30=" -18
check_calculation "2+3*4=" 20
check_calculation "2+3===" 11
check_calculation "5+3 CE 4=" 9
check_calculation "3/12 S =" 4
check_calculation "1.5.~*0=" 0
check_calculation ".12345678" 0.1234567
check_calculation "99999999 + 1 =" "0 overflow"
check_calculation "99999999*99999999=5" "0 overflow"
check_calculation "1/0=" "0 division by zero"
check_calculation "1/0=C7" 7
# Checks the division that takes longest, and a key press after it.
check_calculation "99/9.9099100=+1=" 10.989999
check_calculation "" 0
new_session session < $calculator/quotient.txt
verdict "$(./mcs4 keys "$board" '*7=' | "$mcs4" open "$folder/session.mcs" | ./mcs4 display "$board")" 21.999999 "keys in a continued session"

check_rejected 1 "script: $top/$board has no key x" examples/calculator/run "12x"
check_rejected 2 "usage: run KEYS" examples/calculator/run

# Checks the calculator's script `run` on a copy with an error in its program: the error is reported, and nothing is run.
mkdir "$folder/copy" "$folder/copy/examples"
ln -s "$top/mcs4" "$folder/copy/mcs4"
cp -R examples/calculator "$folder/copy/examples"
for program in "$folder"/copy/examples/calculator/*.asm; do
    { echo " JUN nowhere" && cat "$program"; } > "$folder/faulty"
    cp "$folder/faulty" "$program"
done
verdict "$(outcome "$folder/copy/examples/calculator/run" 1 | sed 's/.*calculator\.asm: //')" "line 1: no 32: nowhere is not defined
script:      JUN nowhere
status 1" "the calculator with an error in its program"
