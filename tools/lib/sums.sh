# Checksums of the sources that the program and the page are made from. A script reads this file with `.`, after it has set `top`, the folder of
# the repository. It needs sha256sum (Debian's package coreutils).
# shellcheck shell=sh disable=SC2034

if ! command -v sha256sum > /dev/null; then
    echo "${0##*/}: sha256sum, which compares the program's sources, is missing; on Debian: apt-get install coreutils" >&2
    exit 1
fi

. "$top/tools/lib/start.sh"
# The joined files, help texts, manual pages and completions of the commands.
commands=$top/shipped/commands
# The page, and the files in its folder that are not its sources (a regular expression).
page=$top/page/fethsaim.html
generated_page_files='page/(from_npm/.*|fethsaim\.(html|png)|check|tsconfig\.json)'

# Prints the lines of crates.txt for a crate and for the crates of this repository that it uses, directly or not, without comments.
lines_of() {
    awk -v wanted="$1" '
        { sub(/ *#.*/, "") }
        split($0, halves, ":") == 2 {
            split(halves[1], head, " ")
            names[++name_count] = head[1]
            line_of[head[1]] = $0
            uses[head[1]] = halves[2]
        }
        END {
            needed[wanted] = 1
            do {
                is_growing = 0
                for (i = name_count; i > 0; i--) {
                    if (!(names[i] in needed) || names[i] in followed) continue
                    followed[names[i]] = is_growing = 1
                    count = split(uses[names[i]], dependencies, " ")
                    for (j = 1; j <= count; j++) needed[dependencies[j]] = 1
                }
            } while (is_growing)
            for (i = 1; i <= name_count; i++) if (names[i] in needed) print line_of[names[i]]
        }
    ' < "$top/crates.txt"
}

# Prints the names of the crates whose lines are on standard input.
crates_of_lines() {
    sed 's/[ :].*//'
}

# Prints the names of the crates of this repository that a crate uses directly.
dependencies_of() {
    for name in $(lines_of "$1" | sed -n "s/^$1\( [^:]*\)\{0,1\}://p"); do
        if [ -d "$top/crates/$name" ]; then echo "$name"; fi
    done
}

# Prints the checksum of standard input.
sum_of_input() {
    sha256sum | cut -d ' ' -f 1
}

# Reads names of files below the top folder; prints a line for each with its checksum, sorted in the same order on all systems.
sums_of_files() {
    LC_ALL=C sort | (cd "$top" && xargs sha256sum)
}

# Prints the paths of code, definitions and proofs of crates. Arguments: the lines of the crates, and `f` for files or `d` for folders.
list_crate_files() {
    (cd "$top" && find crates -name out -prune -o -type "$2" -print) | crates=$(echo "$1" | crates_of_lines) awk -F / '
        BEGIN {
            count = split(ENVIRON["crates"], crates, "\n")
            for (i = 1; i <= count; i++) wanted[crates[i]] = 1
        }
        $2 in wanted && $3 ~ /^(src|specs|proofs)$/
    '
}

# The files that build the program for aarch64 from the crate mcs4.
aarch64_build_files='tools/aarch64 tools/lib/aarch64.c tools/lib/compile.sh'

# Prints the checksum of the sources of a crate and of the crates on which it depends: their lines in crates.txt, and their code, definitions and
# proofs. Tests and must-fail edits are not included.
sum_of_crate() {
    lines=$(lines_of "$1")
    {
        echo "$lines"
        list_crate_files "$lines" f | sums_of_files
    } | sum_of_input
}

# Prints the checksum of the sources of the program for aarch64. Argument: the checksum of the sources of the crate mcs4.
sum_of_aarch64() {
    {
        echo "$1"
        # shellcheck disable=SC2086
        printf '%s\n' $aarch64_build_files | sums_of_files
    } | sum_of_input
}

# Prints the Debian packages with which the program for aarch64 is linked, with their versions, as one word.
packages_for_aarch64() {
    dpkg-query -W -f '${Package}=${Version},' libc6-dev-arm64-cross 'gcc-[0-9]*-aarch64-linux-gnu' binutils-aarch64-linux-gnu 2> /dev/null || echo unknown
}

# Prints the paths of all files that are compared before a program is started, and of the folders in which new files could appear. A zero
# byte ends each path.
list_start_files() {
    lines=$(lines_of mcs4)
    {
        # shellcheck disable=SC2086
        printf '%s\n' crates.txt "${built#"$top/"}" "$build_record" "${shipped#"$top/"}" "${static#"$top/"}" "${aarch64#"$top/"}" "${sums#"$top/"}" \
            tools/lib/sums.sh tools/lib/start.sh $aarch64_build_files /lib64/ld-linux-x86-64.so.2
        echo "$lines" | crates_of_lines | sed 's|^|crates/|'
        list_crate_files "$lines" d
        list_crate_files "$lines" f
    } | tr '\n' '\000'
}

# Prints what shipped/SUMS has for a name: a checksum, or the version of the kit.
shipped_sum() {
    awk -v name="$1" '$1 == name { print $2 }' < "$sums"
}

# Records that a program was built here. Arguments: the checksum of its sources, and the program (by default the one of ./mcs4). If
# that fails, a message says so, and later starts do not use the program.
record_built() {
    line="$1 $(sum_of_input < "${2:-$built}")"
    if make_cache && (umask 077 && {
        if is_own_record; then grep -vxF -- "$line" "$build_record" | tail -n 99; fi
        echo "$line"
    } > "$build_record.$$" && mv -f -- "$build_record.$$" "$build_record") 2> /dev/null; then return; fi
    echo "mcs4: cannot record in ${cache:-a home folder} that this program was built here; the next start does not use it" >&2 || :
}

# Succeeds if the record of built programs belongs to this user.
is_own_record() {
    [ -n "$cache" ] && [ -O "$cache" ] && [ -f "$build_record" ] && [ ! -h "$build_record" ] && [ -O "$build_record" ]
}

# Succeeds if this user has built a program here from given sources. Arguments: the checksum of the sources, and the program (by default
# the one of ./mcs4).
is_built() {
    [ -x "${2:-$built}" ] && is_own_record && grep -qxF -- "$1 $(sum_of_input < "${2:-$built}")" "$build_record"
}

# Prints the reason why a shipped program cannot be started on this system, or nothing if it can. Arguments: the checksum of the sources, the
# program's file, its name in shipped/SUMS, and its machine, as `uname -m` names it.
shipped_problem() {
    if [ "$(uname -s) $(uname -m)" != "Linux $4" ]; then
        echo "$other_system_text $(echo "$4" | tr _ -), and this is $(uname -s) on $(uname -m)"
    elif [ ! -f "$2" ] || [ ! -f "$sums" ]; then
        echo "it is missing"
    elif [ "$(shipped_sum "$(echo "$3-sources" | sed 's/^program-//')")" != "$1" ]; then
        echo "it was built from other sources"
    elif [ "$(sum_of_input < "$2")" != "$(shipped_sum "$3")" ]; then
        echo "it is damaged: its checksum is not the one in shipped/SUMS"
    elif ! runs_here "$2"; then
        echo "$not_running_text ($(echo "$output" | tail -n 1))"
    fi
}

# Prints the checksum of the sources of the page's module: the crate `wasm` and the crates on which it depends, and the files that compile the module.
sum_of_module() {
    {
        sum_of_crate wasm
        printf '%s\n' page/heap.c page/wasm tools/lib/compile.sh | sums_of_files
    } | sum_of_input
}

# Prints the checksum of the sources of the page: its module, the page's folder without generated files, the modules in js, and the examples. It also
# covers the tables that tools and page share, and the manual, whose tables the page shows.
sum_of_page() {
    {
        sum_of_module
        (cd "$top" && find page js/core js/page js/words examples tools/lib/*.txt docs/MANUAL.md -type f -print) | grep -vxE "$generated_page_files" | sums_of_files
    } | sum_of_input
}

# Prints the checksum of the files in shipped/commands.
sum_of_commands() {
    (cd "$top" && find shipped/commands -type f) | sums_of_files | sum_of_input
}

# Prints the checksum of the sources of shipped/commands: all files in js/core, js/words and js/node.
sum_of_command_sources() {
    (cd "$top" && find js/core js/words js/node -type f) | sums_of_files | sum_of_input
}
