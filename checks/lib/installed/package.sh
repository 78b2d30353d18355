# Checks the package: its files, what lintian reports about it, and its use after apt-get install.
# shellcheck shell=sh disable=SC2154

make_home
# Prints the modes, link targets and checksums of everything below a folder lib/fethsaim, except the list of installed files, which differs.
describe_files() {
    (cd "$1" && find . ! -path ./installed -printf '%M %p %l\n' | LC_ALL=C sort && find . -type f ! -path ./installed -exec sha256sum {} + | LC_ALL=C sort)
}

if command -v dpkg-deb > /dev/null; then
    package=$(tools/package "$folder")
    verdict "${package##*/}" "mcs4_$("$(checks/lib/program)" 2>&1 | sed -n 's/^version: mcs4 \([0-9.]*\).*/\1/p')_amd64.deb" "the package's name"
    mkdir "$folder/again"
    tools/package "$folder/again" > "$folder/output"
    verdict "$(cmp "$package" "$folder/again/${package##*/}" && echo same)" same "a package that is built again"
    verdict "$(outcome tools/package "$folder/none")" "package: cannot write in $folder/none
status 1" "a package in a missing folder"
    if command -v lintian > /dev/null; then
        verdict "$(lintian --pedantic "$package" 2> /dev/null | grep -v '^P: ')" "" "the output of lintian above pedantic"
    else
        echo "not run: lintian on the package (apt-get install lintian)"
    fi
    mkdir "$folder/unpacked"
    dpkg-deb -x "$package" "$folder/unpacked"
    # Checks the copyright file: it must name the authors of CodeMirror, and contain its full licence and README's sentence about Fethsaim's licence.
    verdict "$(sed -n 's/.*: Copyright //p' page/codemirror/LICENCE | while IFS= read -r author; do
        grep -qF -- " $author (" "$folder/unpacked/usr/share/doc/mcs4/copyright" || echo "$author"
    done)" "" "authors of CodeMirror whom the package does not name"
    verdict "$(sed -n '/^License: Expat/,$p' "$folder/unpacked/usr/share/doc/mcs4/copyright" | sed '1d; s/^ //; s/^\.$//')" \
        "$(sed -n '/^Permission/,$p' page/codemirror/LICENCE)" "the text of CodeMirror's licence in the package"
    for file in "$folder/unpacked/usr/share/doc/mcs4/copyright" editors/vscode/README.md; do
        verdict "$(sed -n 's/^ *\(No licence .*\)$/\1/p' "$file")" "$(sed -n '/^No licence /p' README.md)" "the licence in ${file##*/}"
    done
    # Checks that the package has the same files as an installation by ./install, whose commands the parts `tools` and `testing` try.
    ./install --prefix "$folder/prefix" > "$folder/output"
    describe_files "$folder/prefix/lib/fethsaim" > "$folder/described"
    describe_files "$folder/unpacked/usr/lib/fethsaim" > "$folder/packed"
    verdict_of_files "$folder/packed" "$folder/described" "the files in the package"
    verdict "$(cd "$folder/unpacked/usr/share" && cat bash-completion/completions/* zsh/vendor-completions/* fish/*/* && gzip -dc man/man1/*.gz)" \
        "$(cd "$folder/prefix/share" && cat bash-completion/completions/* zsh/site-functions/* fish/*/* man/man1/*)" "the completion and the manual pages in the package"
    for start_command in --prefix "--uninstall --prefix"; do
        # shellcheck disable=SC2086
        verdict "$(outcome ./install $start_command "$folder/unpacked/usr")" "install: $folder/unpacked/usr/lib/fethsaim belongs to Debian's package mcs4: upgrade or remove it with apt-get; nothing was changed
status 1" "./install $start_command over a package"
    done
    verdict "$(as_other_user "$folder/unpacked/usr/bin/mcs4" test examples/lock/board.toml examples/lock/lock.asm examples/lock/lock.test | tail -n 1)" \
        "$(./mcs4 test examples/lock/board.toml examples/lock/lock.asm examples/lock/lock.test | tail -n 1)" "tests by the program in the package"
    if [ "$(id -u)" -ne 0 ] || dpkg -s mcs4 > /dev/null 2>&1 || ! command -v apt-get > /dev/null || [ -e /usr/bin/mcs4 ] || [ -e /usr/lib/fethsaim ]; then
        echo "not run: the package installed by apt-get (root, where no mcs4 is there)"
    else
        apt-get install -y --no-install-recommends -o DPkg::Lock::Timeout=300 "$package" > "$folder/output" 2>&1 < /dev/null ||
            { cat "$folder/output" >&2; verdict refused "" "apt-get install"; }
        trap 'dpkg --purge mcs4 > /dev/null 2>&1 || :' EXIT
        verdict "$(as_other_user /usr/bin/mcs4 version | sed -n 2p)" "program: /usr/lib/fethsaim/shipped/mcs4" "mcs4 version of the package"
        describe_files /usr/lib/fethsaim > "$folder/packed"
        verdict_of_files "$folder/packed" "$folder/described" "the files that apt-get installs"
        check_usage /usr/lib/fethsaim /usr/bin/mcs4
        run_check_on tools /usr/lib/fethsaim /usr/bin/mcs4 command environment manual
        run_check_on testing /usr/lib/fethsaim /usr/bin/mcs4 texts
        verdict "$(as_other_user sh -c 'cd "$TMPDIR" && mcs4 test /usr/share/doc/mcs4/examples/lock/board.toml /usr/share/doc/mcs4/examples/lock/lock.asm /usr/share/doc/mcs4/examples/lock/lock.test' | grep -c '^ok')" \
            "$(./mcs4 test examples/lock/board.toml examples/lock/lock.asm examples/lock/lock.test | grep -c '^ok')" "an example's tests by the package"
        dpkg --purge mcs4 > "$folder/output" 2>&1
        verdict "$(ls -d /usr/bin/mcs4 /usr/lib/fethsaim /usr/share/doc/mcs4 2> /dev/null)" "" "the package is removed"
    fi
else
    echo "not run: tools/package (apt-get install dpkg)"
fi
