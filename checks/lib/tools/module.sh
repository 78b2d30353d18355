# Checks systems without a native program. Commands without a session file must run on the proved module there, with the same output as on the native
# program, byte for byte. The other commands must report why they cannot run. The check uses a copy of the tree without any program, and a fake
# `uname` that reports another machine.
# shellcheck shell=sh

other_system=$folder/other
mkdir -p "$other_system/tree/tools" "$other_system/tree/page" "$other_system/tree/shipped" "$other_system/bin"
cp -RL mcs4 js examples "$other_system/tree"
cp -RL tools/lib "$other_system/tree/tools"
cp page/fethsaim.html "$other_system/tree/page"
cp -RL shipped/commands "$other_system/tree/shipped"
# An installation is not writable, and neither are copies of it.
chmod -R u+w "$other_system/tree"
printf '#!/bin/sh\ncase ${1-} in -s) echo Darwin ;; *) echo arm64 ;; esac\n' > "$other_system/bin/uname"
chmod +x "$other_system/bin/uname"
mkdir -m 700 "$other_system/cache"
reason="it is for Linux on x86-64, and this is Darwin on arm64"

# Runs mcs4 with these arguments in the copy, as on the other machine.
on_other_system() {
    env -u MCS4 -u MCS4_PROVE PATH="$other_system/bin:$PATH" XDG_CACHE_HOME="$other_system/cache" "$other_system/tree/mcs4" "$@"
}

# Compares the output, errors and status of a command on the module and on the native program. Both run at the same time. Arguments: the file for the
# input, and the arguments of mcs4.
check_same_on_module() {
    input=$1
    shift
    outcome ./mcs4 "$@" < "$input" > "$folder/native" &
    outcome on_other_system "$@" < "$input" > "$folder/by_module"
    wait "$!"
    verdict_of_files "$folder/by_module" "$folder/native" "on the module: mcs4 $*"
}

# Checks that the message about the module appears once, when a command needs a session.
verdict "$(outcome on_other_system listing $lock/lock.asm | sed -n '/^mcs4: /p; $p')" \
    "mcs4: commands run on the proved module, more slowly, because the native program cannot start: $reason. This message appears once
status 0" "the message about the module"
check_same_on_module /dev/null listing $lock/lock.asm

# --- the examples

count=0
for toml in examples/*/mcs4.toml; do
    example=${toml%/mcs4.toml}
    name=${example#examples/}
    count=$((count + 1))
    for command in test cover profile; do check_same_on_module /dev/null $command -C "$example"; done
    ./mcs4 script -C "$example" > "$folder/$name.txt"
    check_same_on_module /dev/null script -C "$example"
    new_session "$name" < "$folder/$name.txt"
    check_same_on_module "$folder/answers" explain "$folder/$name.txt"
    check_same_on_module /dev/null trace -C "$example" "$folder/$name.mcs" 600
    check_same_on_module /dev/null trace --last 50 "$folder/$name.mcs" 9000
    check_same_on_module /dev/null wave -C "$example" "$folder/$name.mcs" 3000
    check_same_on_module /dev/null profile --session "$folder/$name.mcs" 5000 "$(sed -n 's/^program = "\(.*\)"$/'"$name"'\/\1/p' "$toml" | sed 's|^|examples/|')"
done
for text in examples/*.txt; do
    name=${text#examples/}
    name=${name%.txt}
    count=$((count + 1))
    new_session "$name" < "$text"
    check_same_on_module /dev/null trace "$folder/$name.mcs" 600
    check_same_on_module /dev/null wave "$folder/$name.mcs" 3000
    check_same_on_module "$folder/answers" explain "$text"
    # Extracts the board and the program from a script, so that `mcs4 test` can use them.
    awk -v folder="$folder" '/^wire$/ { to = folder "/board.toml"; printf "" > to; next } /^asm$/ { to = folder "/program.asm"; printf "" > to; next }
        /^\.$/ { to = "" } to != "" { print > to }' "$text"
    if [ -f "examples/$name.test" ]; then
        for command in test cover profile; do check_same_on_module /dev/null $command "$folder/board.toml" "$folder/program.asm" "examples/$name.test"; done
    fi
done
verdict "$count" "$(find examples -name '*.txt' -path 'examples/*' ! -path 'examples/*/*' -o -path 'examples/*/mcs4.toml' | wc -l | tr -d ' ')" "all examples"

# --- the other commands, and errors

new_session session < $calculator/quotient.txt
cp "$folder/answers" "$folder/printed"
check_same_on_module "$folder/printed" cycles --source $calculator/calculator.asm "$folder/session.mcs" 1 3
check_same_on_module $calculator/quotient.txt names $calculator/calculator.asm
check_same_on_module "$folder/printed" display $calculator/board.toml
check_same_on_module /dev/null keys $calculator/board.toml 12+3=
check_same_on_module /dev/null rom ask 0 300
check_same_on_module $lock/lock.asm import -
printf ' LDM 1\n JMP 3\n' > "$folder/wrong.asm"
check_same_on_module /dev/null listing "$folder/wrong.asm"
check_same_on_module /dev/null test $lock/board.toml "$folder/wrong.asm" $lock/lock.test
sed 's/^row = /rows = /; s/chip = 0/chip = 16/' $lock/board.toml > "$folder/wrong.toml"
check_same_on_module /dev/null test "$folder/wrong.toml" $lock/lock.asm $lock/lock.test
sed 's/ on$/ off/' $lock/lock.test > "$folder/fails.test"
verdict "$(grep -c ' off$' "$folder/fails.test" | sed 's/^[1-9].*/some/')" some "a test that fails"
check_same_on_module /dev/null test $lock/board.toml $lock/lock.asm "$folder/fails.test"
head -c 9000 "$folder/session.mcs" > "$folder/cut.mcs"
check_same_on_module /dev/null trace "$folder/cut.mcs" 10
check_same_on_module /dev/null trace "$folder/none.mcs" 10
# The session in a project can be stored as commands or as a snapshot. So the bytes of the projects can differ, but the sessions must be the same.
cp -R $three_lamps "$folder/texts"
for host in ./mcs4 on_other_system; do
    verdict "$(outcome $host project join "$folder/texts" "$folder/${host##*/}.mcsp")" "status 0" "$host: a project"
    ./mcs4 project split "$folder/${host##*/}.mcsp" "$folder/${host##*/}.split"
    echo state | "$mcs4" open "$(ls "$folder/${host##*/}.split"/*.mcs)" > "$folder/${host##*/}.state"
    rm "$folder/${host##*/}.split"/*.mcs
done
verdict_of_files "$folder/on_other_system.state" "$folder/mcs4.state" "the session of a project that the module has joined"
verdict "$(diff -r "$folder/on_other_system.split" "$folder/mcs4.split")" "" "the texts of a project that the module has joined"

# --- proofs; some stop early

for example in pictures three_lamps lock; do check_same_on_module /dev/null prove -C examples/$example --most 3000; done
printf 'press A\nnever lamp open on\nreach lamp open on\n' > "$folder/opens.props"
sed 's/^press A$/press 4\npress 7\npress 1\npress #/' "$folder/opens.props" > "$folder/found.props"
check_same_on_module /dev/null prove $lock/board.toml $lock/lock.asm "$folder/found.props" --most 100000

# --- commands that do not work without a native program

needs_program_message="a session file needs the native program, which cannot start: $reason. Commands without a session file run here"
for arguments in "new $folder/new.mcs" "open $folder/session.mcs"; do
    # shellcheck disable=SC2086
    check_rejected 1 "mcs4: $needs_program_message" on_other_system $arguments
done
cp "$folder/session.mcs" "$folder/before.mcs"
for arguments in "back $folder/session.mcs 1" "resume $calculator/quotient.txt $folder/session.mcs" "panel $calculator/board.toml $folder/session.mcs" \
    "keys --until-stop $folder/session.mcs $calculator/board.toml 1" "debug $folder/session.mcs"; do
    # shellcheck disable=SC2086
    check_rejected 1 "${arguments%% *}: $needs_program_message" on_other_system $arguments
done
verdict_of_files "$folder/session.mcs" "$folder/before.mcs" "a session is unchanged on that system"
verdict "$(ls "$folder/new.mcs" 2> /dev/null || echo none)" none "no session file is created on that system"
