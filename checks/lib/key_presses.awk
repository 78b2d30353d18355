# Converts a description of key presses on examples/calculator into a script and its expected answers:
#
#     awk -v script=FILE -v answers=FILE -f checks/lib/key_presses.awk examples/calculator/board.toml examples/calculator/quotient.txt \
#         examples/calculator/quotient.answers NAME.keys
#
# Each row of NAME.keys is one of these:
# - a comment after `#`;
# - a key that goes down or up (`press 7`, `release 7`);
# - a number of cycles to run (`run 300`);
# - keys that are pressed one after another, and then the expected display between two bars.
# The display is a minus sign or a blank, `!` for an overflow, `?` for a division by zero, and eight digits, each followed by a point or a blank.
# `E` is the key CE. The board's comments name the keys. The board and the program are those in quotient.txt, before its first key press.

# Writes the answer to an accepted command. `more` is what follows `ok N`.
function write_answer(more) {
    print "ok " ++accepted more > answers
}

# Writes a line that presses or releases a key. `verb` is `press` or `release`.
function write_key(verb, name) {
    print verb " " place[name] > script
    write_answer("")
}

# Writes a run, and its answer.
function write_run(cycles) {
    print "run " cycles > script
    write_answer(" ran " cycles " end")
}

# Presses a key and releases it, and runs the program after each. After an operator, the second run is long enough for the calculation.
function press_and_release(name) {
    write_key("press", name)
    write_run(1000)
    write_key("release", name)
    write_run(index("+-*/=", name) ? 16000 : 1700)
}

# Writes a query for the lamps, and the answer for a display.
function expect_display(display,    i, part, marks) {
    print "lamps" > script
    for (i = 1; i <= length(display); i++) {
        part = substr(display, i, 1)
        marks = marks (part == " " ? "." : part in digit ? digit[part] : "*")
    }
    print "lamps " marks > answers
}

BEGIN {
    split(".... ...* ..*. ..** .*.. .*.* .**. .*** *... *..*", lamps, " ")
    for (i = 0; i <= 9; i++) digit[i ""] = lamps[i + 1]
}

FNR == 1 {
    file++
    has_ended = 0
}

# Reads the names of the keys from the board's comments.
file == 1 && /^# row [0-9]+:/ {
    for (i = 4; i <= NF; i++) place[$i == "CE" ? "E" : $i] = ($3 + 0) " " (i - 4)
}

# Copies the board and the program to the script, and the answers to them to the file of answers.
file == 2 && /^press / { has_ended = 1 }
file == 2 && !has_ended { print > script }
file == 3 && /^ok 4/ { has_ended = 1 }
file == 3 && !has_ended {
    print > answers
    if (/^ok /) accepted++
}

file < 4 || /^#/ { next }
$1 == "press" || $1 == "release" {
    write_key($1, $2)
    next
}
$1 == "run" {
    write_run($2)
    next
}
{
    bar = index($0, "|")
    for (i = 1; i < bar; i++) press_and_release(substr($0, i, 1))
    display = substr($0, bar + 1)
    sub(/\|$/, "", display)
    expect_display(display)
}
