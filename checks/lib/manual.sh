# Checks that the manual shows the output of the commands. A check reads this file with `.`, after it has defined `verdict`, `top`, `mcs4` and
# `folder`.
# shellcheck shell=sh

# Runs all commands that a chapter of the manual shows, in a folder with the tools, the examples and the program. Checks that the output of each is
# the text below it. Arguments: the title of the chapter, and the minimum number of its commands.
check_chapter() {
    mkdir -p "$folder/manual"
    ln -s "$top/tools" "$top/examples" "$folder/manual"
    # `new` and `open` start the program itself. All other commands start the `mcs4` of the top folder.
    printf '#!/bin/sh\ncase ${1-} in new | open) exec "%s" "$@" ;; esac\nexec "%s/mcs4" "$@"\n' "$mcs4" "$top" > "$folder/manual/mcs4"
    chmod +x "$folder/manual/mcs4"
    awk -v title="## $1" '
        /^## / { chapter = $0 == title }
        !chapter { next }
        $0 == "" { blanks = blanks "\n"; next }
        !/^    / { block = 0; blanks = ""; next }
        /^    [$] / { block = 1; blanks = "" }
        block { printf "%s%s\n", blanks, substr($0, 5); blanks = "" }
    ' < "$top/docs/MANUAL.md" > "$folder/shown"
    grep -c '^[$] ' "$folder/shown" > "$folder/count"
    verdict "$([ "$(cat "$folder/count")" -ge "$2" ] && echo enough)" enough "commands in the manual, $1"
    awk -v quote="'" '/^[$] / { line = substr($0, 3); text = line; gsub(quote, quote "\\" quote quote, text); print "printf " quote "%s\\n" quote " " quote "$ " text quote; print line }' \
        < "$folder/shown" > "$folder/commands"
    (cd "$folder/manual" && sh ../commands 2>&1) | sed 's/ *$//' > "$folder/printed" || true
    verdict "$(cat "$folder/printed")" "$(cat "$folder/shown")" "the manual, $1"
}
