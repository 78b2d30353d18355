# Functions that compile a crate once more, for another processor or only as an object file, with the libraries that the gate or tools/build has
# proved here. A script reads this file with `.`, after tools/lib/sums.sh.
# shellcheck shell=sh

# Prints the name of the file that lists the libraries on which a crate depends, as they were built here. Each has the checksum of its file `format`,
# with which the library's other files are verified.
libraries_of() {
    echo "$top/crates/$1/out/libraries"
}

# Records the libraries on which a crate depends. They must have been proved and built from the present sources.
record_libraries() {
    mkdir -p "$top/crates/$1/out"
    lines_of "$1" | crates_of_lines | grep -vxF -- "$1" | sed 's|.*|crates/&/out/rlib/&.rlib/format|' | sums_of_files > "$(libraries_of "$1")"
    record_built "$(sum_of_crate "$1")" "$(libraries_of "$1")"
}

# Succeeds if the libraries on which a crate depends are those that this user has proved and built here from the present sources.
has_libraries() {
    is_own_record && [ -f "$(libraries_of "$1")" ] && grep -qxF -- "$(sum_of_crate "$1") $(sum_of_input < "$(libraries_of "$1")")" "$build_record" &&
        (cd "$top" && sha256sum --status -c "$(libraries_of "$1")")
}

# Proves a crate with the libraries that were built here, and compiles it. Arguments: its name, its source file, the file for rattle's output, and
# further arguments for `rattle build`. Succeeds if rattle reports that the crate is proved.
compile_crate() {
    crate=$1 source=$2 log=$3
    shift 3
    kit=$(dirname -- "$(rt doc)")
    set -- --crate-name "$crate" "$source" --extern "std=$kit/rlibs/std.rlib" -L "dependency=$kit/rlibs" "$@"
    for name in $(dependencies_of "$crate"); do set -- "$@" --extern "$name=$top/crates/$name/out/rlib/$name.rlib"; done
    for rlib in "$top"/crates/*/out/rlib; do set -- "$@" -L "dependency=$rlib"; done
    (cd "$top/crates/$crate" && exec "$kit/bin/rattle" build "$@" --antt-project "$kit/rattle/logic/antt-project.json" \
        --logic-built "$kit/logic_built" --links "$crate=" --incremental out/incremental) > "$log" 2>&1 || return
    case $(tail -n 1 "$log") in
    "logic=proved "*) ;;
    *) return 1 ;;
    esac
}

# Compiles the object file of a program that was built here, if it does not exist. Arguments: the name of the crate, and the file for the kit's
# output. Linked as the kit links it, the object file must give the same program.
ensure_object() {
    built_program=$top/crates/$1/out/$1
    if [ -f "$built_program.o" ]; then return; fi
    kit=$(dirname -- "$(rt doc)")
    has_libraries "$1" && compile_crate "$1" src/main.rt "$2" --toolchain "$kit/toolchain" --backend llvm -o "$built_program.new.o" &&
        "$kit/bin/rattle-link" --target x86_64-unknown-linux-gnu --toolchain "$kit/toolchain" -o "$built_program.new" "$built_program.new.o" "$kit/c/libos_c.a" \
            "$kit/c/liblibc_c.a" > "$2" 2>&1 || return
    cmp -s "$built_program.new" "$built_program" || {
        echo "it is not the program that was built" > "$2"
        return 1
    }
    rm -f "$built_program.new"
    mv "$built_program.new.o" "$built_program.o"
}
