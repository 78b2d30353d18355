# Checks an installed program: its files, a session, README's first session and the manual's first hour, the manual pages, and the completion.
# shellcheck shell=sh disable=SC2154

make_home
prefix=$folder/prefix
verdict "$(outcome ./install --prefix "$prefix")" "mcs4 is installed: $prefix/bin/mcs4
$prefix/bin is not on the PATH; to add it: PATH=$prefix/bin:\$PATH
status 0" "./install"
verdict "$(ls "$prefix" "$prefix/bin" "$prefix/lib" | tr '\n' ' ')" "$prefix: bin lib share  $prefix/bin: mcs4  $prefix/lib: fethsaim " "the installed files"
verdict "$(cmp "$(checks/lib/program)" "$prefix/lib/fethsaim/shipped/mcs4" && echo same)" same "the installed program"
# The program can be the one that was built here, so it is not compared with the shipped one.
verdict "$(cd "$prefix/lib/fethsaim" && find . -type f ! -path ./installed ! -path './shipped/mcs4*' | LC_ALL=C sort |
    while IFS= read -r name; do cmp -- "$name" "$top/$name" 2>&1; done)" "" "the installed files that differ from those of the tree"
verdict "$(PATH=$prefix/bin:$PATH ./install --prefix "$prefix")" "mcs4 is installed: $prefix/bin/mcs4" "./install again"
verdict "$(ls -A "$prefix/lib")" fethsaim "no other files are left"
# Makes the files writable again when the part ends, because its folder is then removed.
trap 'chmod -R u+w "$prefix"' EXIT
chmod -R a-w "$prefix"
ln -s "$prefix/bin/mcs4" "$folder/command"
for start_command in "$prefix/bin/mcs4" "$folder/command"; do
    verdict "$(as_other_user "$start_command" version)" "$("$prefix/lib/fethsaim/shipped/mcs4" 2>&1 | sed -n 's/^version: //p')
program: $prefix/lib/fethsaim/shipped/mcs4
manual: $prefix/lib/fethsaim/docs/MANUAL.md
page: $prefix/lib/fethsaim/page/fethsaim.html" "$start_command version"
done
verdict "$(as_other_user "$folder/command" new "$folder/temporary/s.mcs" < examples/lamps.txt)" "$(cat examples/lamps.answers)" "a session"
verdict "$(ls -A "$folder/home")" "" "an installed program is not cached"
# Checks that the program for mcs4 prove is found in the installation.
if [ -x "$prefix/lib/fethsaim/shipped/mcs4-prove" ]; then
    grep '^never not' examples/die.props > "$folder/temporary/faces.props"
    verdict "$(as_other_user "$folder/command" prove examples/die.txt examples/die.txt "$folder/temporary/faces.props" | grep -c '^ok .* - never not .*proved for all inputs')" \
        "$(grep -c . "$folder/temporary/faces.props")" "mcs4 prove"
else
    echo "not run: mcs4 prove (it is not installed here)"
fi

check_usage "$prefix/lib/fethsaim" "$prefix/bin/mcs4" "$folder/command"

# Checks the manual pages and the completion.
if command -v man > /dev/null; then
    verdict "$(man --warnings -l "$prefix/share/man/man1"/*.1 2>&1 > "$folder/pages")" "" "the manual pages"
    verdict "$(MANPATH=$prefix/share/man man mcs4-cover 2> "$folder/output" | grep -c '^EXIT STATUS')" 1 "man mcs4-cover"
fi
cat > "$folder/complete" <<'complete'
. "$1/share/bash-completion/completions/mcs4"
print_completions() { COMP_WORDS=("$@"); COMP_CWORD=$(($# - 1)); _mcs4; echo "$*: ${COMPREPLY[*]}"; }
print_completions mcs4 co
print_completions mcs4 cover --
print_completions mcs4 cover ''
print_completions mcs4 rom ''
print_completions mcs4 rom load --h
print_completions mcs4 help wa
print_completions mcs4 open s
print_completions mcs4 none --
complete
if command -v bash > /dev/null; then
    verdict "$(bash "$folder/complete" "$prefix")" "mcs4 co: cover
mcs4 cover --: --folder --lcov --session --help
mcs4 cover : 
mcs4 rom : load ask save
mcs4 rom load --h: --hex --help
mcs4 help wa: wave
mcs4 open s: 
mcs4 none --: " "completion for bash"
fi
for shell in zsh fish; do
    file=$prefix/share/zsh/site-functions/_mcs4
    if [ "$shell" = fish ]; then file=$prefix/share/fish/vendor_completions.d/mcs4.fish; fi
    if command -v "$shell" > /dev/null; then
        verdict "$("$shell" -n "$file" 2>&1)" "" "completion for $shell is read"
    else
        echo "not run: completion for $shell (apt-get install $shell)"
    fi
done
if command -v fish > /dev/null; then
    verdict "$(HOME=$folder/temporary fish -c 'source $argv[1]; complete -C "mcs4 co"; complete -C "mcs4 cover --s"' "$prefix/share/fish/vendor_completions.d/mcs4.fish" 2>&1 | tr '\t' ' ')" \
        "cover shows which lines of a program were run, and how often
--session" "completion for fish"
fi
