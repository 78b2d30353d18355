# Functions that find the program to start, such as need_program. A script reads this file with `.`, after it has set `top`, the folder of the
# repository.
# shellcheck shell=sh disable=SC2034

# The path of the program that was proved and built here.
built=$top/crates/mcs4/out/mcs4
# The shipped programs: the usual one, a static one for systems with another or an older C library, and one for aarch64.
shipped=$top/shipped/mcs4
static=$top/shipped/mcs4-static
aarch64=$top/shipped/mcs4-aarch64
# The programs that `mcs4 prove` starts: the one that was proved and built here, and the shipped one, for Linux on x86-64 with any C library.
built_prover=$top/crates/mcs4_prove/out/mcs4_prove
prover=$top/shipped/mcs4-prove
# The checksums of the shipped files.
sums=$top/shipped/SUMS

# Comparing all sources takes a tenth of a second. So the program that was found is cached, with the sizes and times of all files that were
# read, and of all folders in which new files could appear. While these are unchanged, the sources are not compared again. The cache is a
# private folder of the user. It has two files for each tree: `NAME.names` lists the program, the files and the folders; `NAME.seen` has
# their sizes and times. If the folder is not writable, each start compares the sources again.
case ${XDG_CACHE_HOME:-} in
    /*) cache=$XDG_CACHE_HOME/fethsaim ;;
    *) case ${HOME:-} in
        /?*) cache=$HOME/.cache/fethsaim ;;
        *) cache= ;;
    esac ;;
esac
encoded_top=
remaining_path=$top
while [ "$remaining_path" != "${remaining_path#*/}" ]; do
    encoded_top=$encoded_top${remaining_path%%/*}%
    remaining_path=${remaining_path#*/}
done
names_file=$cache/$encoded_top$remaining_path.names
stamps_file=$cache/$encoded_top$remaining_path.seen
# A line for each program that this user has built, with the checksums of its sources and of its bytes. The file is outside the tree: a tree
# from somebody else could contain a program and a forged file.
build_record=$cache/built

# Prints the sizes and times of the cache folder, and then those of all existing files and folders that a file lists after its first line.
file_stamps() {
    (CDPATH='' cd -- "$top" && read -r _ && LC_ALL=C exec xargs -0 stat -L -c '%a %i %s %Y %.9Z' -- "$cache") < "$1" 2> /dev/null || :
}

# Sets `program` to the program that an earlier start has cached, if nothing has changed since. Otherwise fails. Ignores cache files that another
# user could have written.
read_cache() {
    if [ -z "$cache" ] || [ ! -O "$cache" ]; then return 1; fi
    for cache_file in "$names_file" "$stamps_file"; do
        if [ -h "$cache_file" ] || [ ! -O "$cache_file" ]; then return 1; fi
    done
    file_stamps "$names_file" | {
        read -r mode _
        [ "$mode" = 700 ] && exec cmp -s - "$stamps_file"
    } || return 1
    read -r program < "$names_file"
    program=$top/$program
}

# Creates the cache folder if necessary. Fails if it would not belong to the user, so that root creates no folder in another user's home.
make_cache() {
    if [ -z "$cache" ]; then return 1; fi
    parent=${cache%/*}
    if [ ! -e "$parent" ]; then parent=${parent%/*}; fi
    [ -O "$parent" ] && (umask 077 && mkdir -p -- "$cache") 2> /dev/null && [ -O "$cache" ] && [ -w "$cache" ]
}

# Writes the program that was found, and the sizes and times, to the cache. Does nothing if a file has changed in the last three seconds, because a
# clock with a resolution of seconds might not show its next change. Removes the old `seen` file first, so that files of two starts are never mixed.
write_cache() {
    {
        echo "${program#"$top/"}"
        list_start_files
    } > "$names_file.$$" && file_stamps "$names_file.$$" | sed 1d > "$stamps_file.$$" &&
        cmp -s "$stamps_file.$$" "$stamps_file.$$.before" &&
        awk -v now="$(date +%s)" '$4 >= now - 3 || $5 >= now - 3 { young = 1 } END { exit young || NR < 10 }' "$stamps_file.$$" &&
        rm -f -- "$stamps_file" && mv -f "$names_file.$$" "$names_file" && mv -f "$stamps_file.$$" "$stamps_file"
}

# Succeeds if a program runs on this system: without arguments it prints its usage, with status 2. Sets `output` to its output, or to the
# system's error.
runs_here() {
    status=0
    output=$({ "$1" < /dev/null; } 2>&1) || status=$?
    [ "$status" -eq 2 ]
}

# Succeeds if this tree was installed by ./install or a package. It then has no sources, but the checksum of its program in the file
# `installed`. In a clone, a file of that name is ignored.
is_installed() {
    [ -f "$top/installed" ] && [ ! -e "$top/crates.txt" ]
}

# The beginnings of two messages: the program is for another system, and the program is for this system but does not run.
other_system_text="it is for Linux on"
not_running_text="it does not run on this system"

# Succeeds if no program can be built for this system, and sets `reason` to the message. Uses only `uname`, because such a system can lack all
# other commands.
is_other_system() {
    case "$(uname -s) $(uname -m)" in
    "Linux x86_64" | "Linux aarch64") return 1 ;;
    esac
    reason="$other_system_text x86-64, and this is $(uname -s) on $(uname -m)"
}

# Succeeds if the program cannot run on this system (`reason` says why), and cannot be built here. Commands then use the WebAssembly module.
is_without_program() {
    case $reason in
    "$other_system_text"*) ;;
    "$not_running_text"*) is_installed || ! command -v rt > /dev/null ;;
    *) return 1 ;;
    esac
}

# Sets `program` to an installed program, or `reason` to a message that says why it cannot be started. Arguments: its file, and the name of its
# checksum.
find_installed() {
    if { [ ! -x "$1" ] || [ ! -e /lib64/ld-linux-x86-64.so.2 ]; } && is_other_system; then
        return
    elif [ ! -x "$1" ]; then
        reason="it is missing; install it again"
    elif ! command -v sha256sum > /dev/null; then
        reason="sha256sum, which compares its checksum, is missing; on Debian: apt-get install coreutils"
    elif [ "$(sha256sum < "$1")" != "$(sed -n "s/^$2 //p" "$top/installed")  -" ]; then
        reason="it is damaged: its checksum is not the one in $top/installed; install it again"
    elif [ ! -e /lib64/ld-linux-x86-64.so.2 ] && ! runs_here "$1"; then
        reason="$not_running_text, $(uname -s) on $(uname -m); install it again"
    else
        program=$1
    fi
}

# Sets `program` to the program that was built from these sources, either here or before it was shipped. If there is none, sets `reason`.
find_by_sources() {
    sources=$(sum_of_crate mcs4)
    if is_built "$sources"; then
        program=$built
    elif [ -f "$aarch64" ] && [ "$(uname -s) $(uname -m)" = "Linux aarch64" ]; then
        reason=$(shipped_problem "$(sum_of_aarch64 "$sources")" "$aarch64" aarch64 aarch64)
        if [ -z "$reason" ]; then program=$aarch64; fi
    else
        reason=$(shipped_problem "$sources" "$shipped" program x86_64)
        case $reason in
        '') program=$shipped ;;
        "$not_running_text"*)
            if [ -f "$static" ] && [ -z "$(shipped_problem "$sources" "$static" static x86_64)" ]; then
                program=$static
                reason=
            fi
            ;;
        esac
    fi
}

# Sets `program` to the program that was proved and built here, if its sources are unchanged. Otherwise sets it to the program in shipped/,
# if that was built from these sources and runs on this system. Otherwise `program` is empty, and `reason` says why.
find_program() {
    program=
    reason=
    if is_installed; then
        find_installed "$shipped" program
        return
    fi
    if read_cache || is_other_system; then return; fi
    . "$top/tools/lib/sums.sh"
    can_cache=
    if make_cache; then
        can_cache=1
        (umask 077 && {
            echo
            list_start_files
        } > "$names_file.$$" && file_stamps "$names_file.$$" | sed 1d > "$stamps_file.$$.before") 2> /dev/null || can_cache=
    fi
    find_by_sources
    if [ -n "$can_cache" ]; then
        if [ -n "$program" ]; then (umask 077 && write_cache) 2> /dev/null || :; fi
        rm -f -- "$names_file.$$" "$stamps_file.$$" "$stamps_file.$$.before"
    fi
}

# Sets `program` without comparing sources and without a message. Fails if the program is neither installed nor cached by an earlier start.
find_known() {
    program=
    reason=
    if is_installed; then
        find_installed "$shipped" program
        [ -n "$program" ]
    else
        read_cache && { [ "$program" = "$built" ] || [ -e "$cache/reported" ]; }
    fi
}

# Finds the program that `mcs4 prove` starts, as find_program does. It is not cached: a search takes longer than the comparison of sources.
find_prover() {
    program=
    reason=
    if is_installed; then
        find_installed "$prover" prover
        return
    fi
    if is_other_system; then return; fi
    . "$top/tools/lib/sums.sh"
    sources=$(sum_of_crate mcs4_prove)
    if is_built "$sources" "$built_prover"; then
        program=$built_prover
    else
        reason=$(shipped_problem "$sources" "$prover" prover x86_64)
        if [ -z "$reason" ]; then program=$prover; fi
    fi
}

# Finds the program to start. If there is none, prints the reason, and proves and builds it. `program` is empty if there is no program for this
# system. A message informs each user once that the shipped program is used.
find_or_build() {
    find_program
    if [ -n "$reason" ] && is_without_program; then
        program=
    elif [ -n "$reason" ] && is_installed; then
        echo "mcs4: cannot start $shipped: $reason" >&2 || :
        exit 126
    elif [ -n "$reason" ]; then
        echo "mcs4: cannot start the program in shipped/: $reason. Now proving and building the program" >&2 || :
        "$top/tools/build" >&2
        program=$built
    elif [ "$program" != "$built" ] && ! is_installed && [ -n "$cache" ] && [ ! -e "$cache/reported" ] && make_cache && { : > "$cache/reported"; } 2> /dev/null; then
        echo "mcs4: this is the program in shipped/. It was proved and built from these sources, but not on this machine; to prove" \
            "and build it here, run tools/build. This message appears once" >&2 || :
    fi
}

# Finds the program to start for a session file; exits with a message if there is none for this system.
need_program() {
    find_or_build
    if [ -n "$program" ]; then return; fi
    echo "mcs4: a session file needs the native program, which cannot start: $reason. Commands without a session file run here" >&2 || :
    exit 1
}
