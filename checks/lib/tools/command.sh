# Checks the help and the manual page of each command of mcs4. Also starts mcs4 through links, without Node, and with an old version of Node.
# shellcheck shell=sh

cp $lock/lock.asm "$folder/program.asm"

# Runs a command with its standard output in the file `output` and its standard error in `errors`. Prints their line counts, and the exit status.
count_lines() {
    status=0
    "$@" > "$folder/output" 2> "$folder/errors" || status=$?
    echo "$(wc -l < "$folder/output") $(wc -l < "$folder/errors") $status" | tr -s ' '
}

# Checks each command. Its help must begin with its usage and have short lines, an unknown option must print the usage, and its manual page must have
# all headings.
commands=$(./mcs4 help | sed -n 's/^  \([a-z]\{3,9\}\) .*/\1/p' | LC_ALL=C sort)
verdict "$(ls js/node/commands | sed 's/\.mjs//; /^table$/d' | LC_ALL=C sort)" "$commands" "mcs4 help"
node js/node/command_pages.mjs "$folder/pages" > /dev/null
for command in $commands; do
    verdict "$(count_lines ./mcs4 help "$command" | sed 's/^[0-9]*/some/')" "some 0 0" "mcs4 help $command"
    verdict "$(head -n 1 "$folder/output" | cut -d ' ' -f 1-3); $(awk 'length > 79' "$folder/output" | grep -c '^[^ u]\|^ \{6\}[^ ]' || :)" "usage: mcs4 $command; 0" "the output of mcs4 help $command"
    verdict "$(count_lines ./mcs4 "$command" --none --none --none --none --none --none --none | sed 's/^0 [0-9]* /0 some /'): $(sed 's/^\(usage: mcs4 \).*/\1/; 2q' "$folder/errors")" "0 some 2: $command: there is no option --none
usage: mcs4 " "mcs4 $command with an unknown option"
    if command -v man > /dev/null; then
        verdict "$(man --warnings -l "$folder/pages/man/mcs4-$command.1" 2>&1 > "$folder/page.txt")" "" "the manual page of $command"
        verdict "$(grep -cE '^(NAME|SYNOPSIS|DESCRIPTION|EXIT STATUS|SEE ALSO)$' "$folder/page.txt")" 5 "the headings of the manual page of $command"
    fi
done
for word in help --help -h "help version"; do
    # shellcheck disable=SC2086
    verdict "$(count_lines ./mcs4 $word)" "$(./mcs4 help | wc -l | tr -d ' ') 0 0" "mcs4 $word"
done
verdict "$(count_lines ./mcs4 help refusals): $(sed -n '1p; $p' "$folder/output")" "$(grep -c '^[0-9]' tools/lib/refusals.txt) 0 0: $(sed -n '/^10 /p; /^90 /p' tools/lib/refusals.txt)" "mcs4 help refusals"
for word in version --version -V; do verdict "$(count_lines ./mcs4 $word | sed 's/^[34] /some /')" "some 0 0" "mcs4 $word"; done
verdict "$(count_lines ./mcs4 2> /dev/null; cat "$folder/errors")" "0 5 2
usage: mcs4 new FILE
       mcs4 open FILE
       mcs4 COMMAND ..
       mcs4 help [COMMAND]
       mcs4 version" "mcs4 without arguments"
for word in frob build lib ../mcs4 "" speed table constructor; do
    check_rejected 2 "mcs4: there is no command $word; mcs4 help lists the commands" ./mcs4 help "$word"
    if [ -n "$word" ]; then check_rejected 2 "mcs4: there is no command $word; mcs4 help lists the commands" ./mcs4 "$word" x; fi
done
# Checks that mcs4 reports a full or closed standard output. Wrong arguments must have status 2 even if one of the output streams is full or closed.
for stream in "> /dev/full" ">&-"; do
    for arguments in help --help "help refusals" "help new" "help open" "help help" "help version" "help cover" version --version; do
        verdict "$(outcome sh -c "./mcs4 $arguments $stream" | sed 's/standard output is closed/not all output was written; is the disk full?/')" "mcs4: not all output was written; is the disk full?
status 1" "mcs4 $arguments $stream"
    done
    for arguments in "" frob "help frob" "version 4" "help listing rom" "''"; do
        verdict "$(outcome sh -c "./mcs4 $arguments 2$stream")" "status 2" "mcs4 $arguments 2$stream"
        verdict "$(outcome sh -c "./mcs4 $arguments $stream" | sed -n '/^status/p')" "status 2" "mcs4 $arguments $stream"
    done
done
# Starts mcs4 through a symbolic link, and through a link to a link in a folder that is itself a link.
mkdir "$folder/links" "$folder/more"
ln -s "$folder/more" "$folder/linked"
ln -s "$top/mcs4" "$folder/more/command"
ln -s "../linked/command" "$folder/links/command"
for name in more/command links/command; do
    verdict "$(cd "$folder" && outcome $name listing --names program.asm)" "$(outcome ./mcs4 listing --names "$folder/program.asm")" "a listing by the link $name"
done
check_rejected 2 "mcs4: '4' is one argument too many
$(./mcs4 2>&1 || :)" ./mcs4 version 4
check_rejected 2 "mcs4: 'rom' is one argument too many
$(./mcs4 2>&1 || :)" ./mcs4 help listing rom

# Checks that without Node, help, version, new and open work, and other commands report that they need Node.
mkdir "$folder/no_node"
for program in sh sed awk cat env grep tr cut sort uname sha256sum stat xargs find readlink dirname mkdir rm date cmp head tail id ls mv tee wc; do
    if command -v $program > /dev/null; then ln -s "$(command -v $program)" "$folder/no_node/$program"; fi
done
run_without_node() { PATH=$folder/no_node outcome ./mcs4 "$@"; }
verdict "$(run_without_node version)" "$(outcome ./mcs4 version)" "mcs4 version without Node"
case $(./mcs4 version) in
*"none so far"*) echo "not run: mcs4 new without Node, in checks/tools (the program in shipped/ is not of these sources)" ;;
*)
    # Starts the program once, so that the message that each user sees only once does not appear later.
    ./mcs4 open "$folder/none.mcs" < /dev/null > "$folder/printed" 2>&1 || :
    verdict "$(echo seq | run_without_node new "$folder/plain.mcs")" "session 0
seq 0
status 0" "mcs4 new without Node"
    ;;
esac
verdict "$(run_without_node help | sed 1q)" "usage:" "mcs4 help without Node"
verdict "$(run_without_node help listing)" "$(cat shipped/commands/help/listing.txt)
status 0" "mcs4 help listing without Node"
verdict "$(run_without_node listing $lock/lock.asm)" "mcs4: listing needs Node 18 or later, which is not installed; on Debian: apt-get install nodejs
status 1" "mcs4 listing without Node"
for word in --help -h; do verdict "$(run_without_node listing $word)" "$(run_without_node help listing)" "mcs4 listing $word without Node"; done
for arguments in "frob" "help frob" "frob x"; do
    # shellcheck disable=SC2086
    verdict "$(run_without_node $arguments)" "mcs4: there is no command frob; mcs4 help lists the commands
status 2" "mcs4 $arguments without Node"
done
for arguments in "help listing x" "version x"; do
    # shellcheck disable=SC2086
    verdict "$(run_without_node $arguments)" "mcs4: 'x' is one argument too many
status 2" "mcs4 $arguments without Node"
done
verdict "$(run_without_node open -x.mcs)" "mcs4: there is no option -x.mcs; for a file of this name, write ./-x.mcs
status 2" "mcs4 open -x.mcs without Node"

# Replaces Node with a script that behaves like Node 12 of 2019, which has no modules whose names begin with `node:`.
mkdir "$folder/old_node"
cat > "$folder/older.cjs" << 'end'
const modules = require("module");
const load = modules._load;
modules._load = (name, ...others) => {
  if (name.startsWith("node:")) throw new Error(`Cannot find module '${name}'`);
  return load(name, ...others);
};
Object.defineProperty(process, "version", { value: "v12.22.12" });
Object.defineProperty(process, "versions", { value: { ...process.versions, node: "12.22.12" } });
end
printf '#!/bin/sh\nexec "%s" --require "%s" "$@"\n' "$(command -v node)" "$folder/older.cjs" > "$folder/old_node/node"
chmod +x "$folder/old_node/node"
for arguments in "listing $lock/lock.asm" help "help listing" "frob"; do
    # shellcheck disable=SC2086
    verdict "$(PATH=$folder/old_node:$PATH outcome ./mcs4 $arguments)" "mcs4: it needs node 18 or later, and this is v12.22.12
status 1" "mcs4 $arguments with Node 12"
done

# Tries session files whose names look like options, and an empty name.
(
    cd "$folder"
    verdict "$(outcome "$top/mcs4" new -x.mcs)" "new: there is no option -x
usage: mcs4 new FILE
status 2" "mcs4 new -x.mcs"
    verdict "$(echo seq | outcome "$top/mcs4" new -- -x.mcs; ls -- -x.mcs)" "session 0
seq 0
status 0
-x.mcs" "mcs4 new -- -x.mcs"
    verdict "$(outcome "$top/mcs4" open -- -x.mcs)" "session 0
status 0" "mcs4 open -- -x.mcs"
    verdict "$(outcome "$top/mcs4" new '')" "mcs4: the name of the session's file is empty
status 2" "mcs4 new with an empty name"
    echo "$passed $failed" > counts
)
read -r passed failed < "$folder/counts"
