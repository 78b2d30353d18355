# Checks ./install on a system without a native program: the commands must run on the proved module there, with the same output.
# shellcheck shell=sh disable=SC2154

make_home
prefix=$folder/prefix
./install --prefix "$prefix" > "$folder/output"
mkdir "$folder/bin"
printf '#!/bin/sh\ncase $1 in -s) echo Linux ;; *) echo riscv64 ;; esac\n' > "$folder/bin/uname"
chmod +x "$folder/bin/uname"
# Runs a command as on a system without a native program: `uname` reports another processor, and mcs4 is the one that is installed in the folder
# `elsewhere`.
on_other_system() {
    env PATH="$folder/bin:$folder/elsewhere/bin:$PATH" XDG_CACHE_HOME="$folder/cache" "$@"
}
mkdir -m 700 "$folder/cache"
reason="it is for Linux on x86-64, and this is Linux on riscv64"
verdict "$(outcome on_other_system ./install --prefix "$folder/elsewhere")" "mcs4 is installed: $folder/elsewhere/bin/mcs4
The native program is not installed: $reason. Commands that need no session file run on the proved module
status 0" "./install on a system without a program"
verdict "$(sed 1q "$folder/elsewhere/lib/fethsaim/installed"; ls "$folder/elsewhere/lib/fethsaim/shipped")" \
    "$(sed 1q "$prefix/lib/fethsaim/installed")
commands" "what is installed there"
verdict "$(outcome on_other_system mcs4 new "$folder/elsewhere.mcs")" "mcs4: a session file needs the native program, which cannot start: $reason. Commands \
without a session file run here
status 1" "a session on that system"
for command in test cover profile; do
    (cd / && outcome on_other_system mcs4 "$command" -C "$prefix/lib/fethsaim/examples/lock") > "$folder/there"
    if [ "$command" = test ]; then
        verdict "$(sed -n 's/^mcs4: //p' "$folder/there")" "commands run on the proved module, more slowly, because the native program cannot start: $reason. This message appears once" \
            "the message that appears once on that system"
        sed -i '/^mcs4: /d' "$folder/there"
    fi
    outcome "$prefix/bin/mcs4" "$command" -C "$prefix/lib/fethsaim/examples/lock" > "$folder/here"
    verdict_of_files "$folder/there" "$folder/here" "mcs4 $command of what is installed there"
done
verdict "$(outcome on_other_system ./install --prefix "$folder/elsewhere" --uninstall; ls "$folder/elsewhere" 2> /dev/null)" "mcs4 was removed from $folder/elsewhere
status 0" "./install --uninstall on that system"
