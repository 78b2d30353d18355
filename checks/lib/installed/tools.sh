# Runs checks/tools as another user on an installation that is not writable. Omits the parts that check only how commands read arguments, print
# control characters and run without the native program. The part `use` checks that the installed commands are those of the tree.
# shellcheck shell=sh disable=SC2154

make_home
prefix=$folder/prefix
./install --prefix "$prefix" > "$folder/output"
# Makes the files writable again when the part ends, because its folder is then removed.
trap 'chmod -R u+w "$prefix"' EXIT
chmod -R a-w "$prefix"
parts=$(cd checks/lib/tools && for script in *.sh; do case $script in arguments.sh | escapes.sh | module.sh) ;; *) echo "${script%.sh}" ;; esac; done)
# shellcheck disable=SC2086
run_check_on tools "$prefix/lib/fethsaim" "$prefix/bin/mcs4" $parts
