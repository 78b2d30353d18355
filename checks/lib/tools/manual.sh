# Checks that the manual's chapters about lines and about the workbench show what the program and the commands print.
# shellcheck shell=sh

. "$top/checks/lib/manual.sh"
check_chapter "Lines" 3
rm -rf "$folder/manual"
check_chapter "The workbench" 12

# Checks that tools/lib/answers.txt and the manual have the same commands and queries.
verdict "$(awk -F ' [|] ' '
    /^### / { inside = /^### (Commands|Queries)$/ }
    inside && /^[|] `/ {
        n = split($1, parts, "`")
        for (i = 2; i <= n; i += 2) {
            split(parts[i], words, " ")
            print words[1]
        }
    }
' < docs/MANUAL.md | sort)" "$(sed -n '/^[a-z]/p' tools/lib/answers.txt | cut -f 1 | sort)" "the lines of the bench in the manual"
