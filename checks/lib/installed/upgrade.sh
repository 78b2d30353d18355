# Checks an upgrade from an older version, an installation for one user, and the removal of both.
# shellcheck shell=sh disable=SC2154

make_home
prefix=$folder/prefix
./install --prefix "$prefix" > "$folder/output"
installed_list=$prefix/lib/fethsaim/installed
echo older > "$prefix/share/man/man1/mcs4-older.1"
echo older > "$prefix/lib/fethsaim/tools/older"
mkdir "$prefix/lib/fethsaim/older"
echo older > "$prefix/lib/fethsaim/older/older"
for name in share/man/man1/mcs4-older.1 lib/fethsaim/tools/older lib/fethsaim/older/older; do
    echo "file $(sha256sum < "$prefix/$name" | cut -d ' ' -f 1) $name"
done >> "$installed_list"
echo older > "$prefix/share/man/man1/mcs4-oldest.1"
echo "file share/man/man1/mcs4-oldest.1" >> "$installed_list"
echo mine > "$prefix/share/man/man1/mine.1"
verdict "$(PATH=$prefix/bin:$PATH outcome ./install --prefix "$prefix")" "mcs4 is installed: $prefix/bin/mcs4
status 0" "an older version is replaced"
verdict "$(ls -d "$prefix/share/man/man1"/mcs4-old* "$prefix/lib/fethsaim/tools/older" "$prefix/lib/fethsaim/older" 2> /dev/null | wc -l | tr -d ' ')" 0 "the files of the older version are removed"
verdict "$(outcome ./install --uninstall --prefix="$prefix")" "mcs4 was removed from $prefix
status 0" "./install --uninstall"
verdict "$(cd "$prefix" && find . | sort | tr '\n' ' ')" ". ./share ./share/man ./share/man/man1 ./share/man/man1/mine.1 " "only the user's files are left"
verdict "$(as_other_user PATH="$folder/home/.local/bin:$PATH" ./install)" "mcs4 is installed: $folder/home/.local/bin/mcs4" "./install by a user"
verdict "$(as_other_user PATH="$folder/home/.local/bin:$PATH" mcs4 help listing | sed 1q)" "usage: mcs4 listing [-C FOLDER] [--names | --labels] [PROGRAM]" "a command that a user has installed"
as_other_user ./install --uninstall > "$folder/output"
verdict "$(ls -A "$folder/home")" ".cache" "no files and no created folders are left"
