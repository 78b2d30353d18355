# Runs checks/testing as another user on an installation that is not writable. mcs4 is started through a link.
# shellcheck shell=sh disable=SC2154

make_home
prefix=$folder/prefix
./install --prefix "$prefix" > "$folder/output"
# Makes the files writable again when the part ends, because its folder is then removed.
trap 'chmod -R u+w "$prefix"' EXIT
chmod -R a-w "$prefix"
ln -s "$prefix/bin/mcs4" "$folder/command"
run_check_on testing "$prefix/lib/fethsaim" "$folder/command"
