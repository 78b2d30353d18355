# Checks that mcs4 uses the joined files of the commands (shipped/commands) if they were made from the sources in the tree, and otherwise the modules.
# shellcheck shell=sh

if [ ! -e tools/join_commands.mjs ]; then
    # An installation lacks the script that makes the joined files, so there is nothing to check.
    :
elif ! command -v esbuild > /dev/null; then
    echo "not run: joined files, in checks/tools (Debian's package: esbuild)"
else
    # Checks that the scripts that generate files reject missing and wrong arguments, and then write nothing.
    mkdir "$folder/empty"
    for arguments in "tools/join_commands.mjs" "tools/join_commands.mjs --help" "tools/join_commands.mjs pages none" "js/node/command_pages.mjs" \
        "js/node/command_pages.mjs --help" "js/node/command_pages.mjs pages more" "editors/make.mjs --help" "editors/make.mjs made more"; do
        # shellcheck disable=SC2086
        verdict "$(cd "$folder/empty" && outcome node "$top"/$arguments | cut -d ' ' -f 1-3; ls)" "usage: node ${arguments%% *}
status 2" "node $arguments"
    done
    tree=$folder/tree
    mkdir -p "$tree/shipped/commands" "$tree/tools"
    cp -R mcs4 js examples "$tree"
    cp -R tools/lib tools/join_commands.mjs "$tree/tools"
    node "$tree/tools/join_commands.mjs" "$tree/shipped/commands" listing keys
    print_loader() {
        node --input-type=module -e "import { loadJoinedCommand } from '$tree/js/node/joined_loader.cjs'; console.log(loadJoinedCommand('$1') ? 'joined' : 'modules')"
    }
    verdict "$(print_loader listing) $(print_loader keys) $(print_loader test) $(print_loader ../keys)" "joined joined modules modules" "the commands that are joined"
    for arguments in "listing $lock/lock.asm" "listing -h" "listing --none" "keys $lock/board.toml 1" "keys $lock/board.toml x" "listing none"; do
        # shellcheck disable=SC2086
        verdict "$(outcome "$tree/mcs4" $arguments)" "$(outcome ./mcs4 $arguments)" "joined: $arguments"
    done
    # Checks that the result of the comparison with the sources is cached in a private folder of the user, if the files have not changed for some
    # seconds.
    export XDG_CACHE_HOME="$folder/cache"
    sleep 4
    verdict "$(print_loader listing); $(ls "$XDG_CACHE_HOME/fethsaim" | grep -c '\.listing\.joined$'); $(ls -ld "$XDG_CACHE_HOME/fethsaim" | cut -c 1-10)" "joined; 1; drwx------" \
        "the cache of a joined file"
    verdict "$(print_loader listing)" joined "a joined file in the cache"
    chmod 755 "$XDG_CACHE_HOME/fethsaim"
    : > "$XDG_CACHE_HOME/fethsaim/$(ls "$XDG_CACHE_HOME/fethsaim" | grep '\.listing\.joined$')"
    verdict "$(print_loader listing); $(cat "$XDG_CACHE_HOME/fethsaim"/*.joined | wc -c | tr -d ' ')" "joined; 0" "a folder that others can read"
    chmod 700 "$XDG_CACHE_HOME/fethsaim"
    verdict "$(print_loader listing); $(print_loader listing)" "joined; joined" "a joined file in the cache again"
    # Checks that the compiled code is also cached in that folder: first the code for the help, then all code of the command. If the cached code is
    # truncated, zeroed or of another version, it is compiled again.
    code=$XDG_CACHE_HOME/fethsaim/listing.code
    kind_of_code() {
        "$tree/mcs4" listing "$@" > "$folder/listed" 2> /dev/null || :
        echo "$(head -c 80 "$code" | cut -d ' ' -f 2) $(ls -l "$code" | cut -c 1-10)"
    }
    rm -f "$code"
    verdict "$(kind_of_code -h); $(kind_of_code); $(kind_of_code "$lock/lock.asm"); $(kind_of_code -h)" \
        "asked -rw-------; asked -rw-------; done -rw-------; done -rw-------" "compiled code is cached"
    cp "$code" "$folder/code"
    for damage in cut zeroed other; do
        case $damage in
        cut) head -c 50000 "$folder/code" > "$code" ;;
        zeroed) { head -c 80 "$folder/code" && tail -c +81 "$folder/code" | tr '\001-\377' '\000'; } > "$code" ;;
        other) sed '1s/^......../00000000/' "$folder/code" > "$code" ;;
        esac
        verdict "$(outcome "$tree/mcs4" listing $lock/lock.asm); $(head -c 69 "$code")" "$(outcome ./mcs4 listing $lock/lock.asm); $(head -c 69 "$folder/code")" \
            "compiled code that is $damage"
    done
    echo "// damaged" >> "$tree/js/core/text/control_escapes.js"
    verdict "$(print_loader listing)" modules "a joined file in the cache, from other sources"
    cp -p js/core/text/control_escapes.js "$tree/js/core/text"
    verdict "$(print_loader listing)" joined "a joined file in the cache, from the same sources again"
    # Changes a string in the modules, so that the output shows whether the modules or the joined file were used.
    sed 's/Prints this help/Shows this help/' js/words/commands.js > "$tree/js/words/commands.js"
    verdict "$(print_loader listing); $("$tree/mcs4" listing -h | grep -c 'Shows this help')" "modules; 1" "a joined file from other sources"
    cp js/words/commands.js "$tree/js/words"
    verdict "$(print_loader listing)" joined "a joined file from the same sources again"
    echo "// damaged" >> "$tree/shipped/commands/listing.cjs"
    verdict "$(print_loader listing)" modules "a joined file that is damaged"
    rm -r "$tree/js/core"
    verdict "$(outcome "$tree/mcs4" keys $lock/board.toml 1)" "$(outcome ./mcs4 keys $lock/board.toml 1)" "a joined file in a tree without sources"
fi
