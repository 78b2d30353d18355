# Checks failed runs of ./install, which must change nothing: wrong arguments, existing files of the user with the same names, no permission, and a
# full file system. Also checks the other messages of ./install.
# shellcheck shell=sh disable=SC2154

make_home
prefix=$folder/prefix
./install --prefix "$prefix" > "$folder/output"
usage="usage: ./install [--prefix FOLDER] [--uninstall]"
check_unchanged "install: there is no option --frob
$usage" 2 ./install --frob
check_unchanged "install: 'frob' is not an option; for a folder, write --prefix FOLDER
$usage" 2 ./install frob
for arguments in "--prefix" "--prefix --uninstall" "--prefix --help" "--prefix --" "--prefix="; do
    # shellcheck disable=SC2086
    check_unchanged "install: FOLDER is missing after --prefix
$usage" 2 ./install $arguments
done
check_unchanged "install: a folder before .. in $folder/none/../x does not exist; name the folder without .." 1 ./install --prefix "$folder/none/../x"
verdict "$(cd "$folder/home" && outcome "$top/install" --prefix ../beside/x | sed 1q; cd "$folder/home" && outcome "$top/install" --prefix ../beside/x --uninstall; ls -d "$folder/beside" 2>&1)" \
    "mcs4 is installed: $folder/beside/x/bin/mcs4
mcs4 was removed from $folder/beside/x
status 0
ls: cannot access '$folder/beside': No such file or directory" "./install --prefix ../beside/x"
check_unchanged "install: Fethsaim is not installed in $folder/none" 1 ./install --uninstall --prefix "$folder/none"
: > "$folder/no_folder"
check_unchanged "install: $folder/no_folder is not a folder" 1 ./install --prefix "$folder/no_folder"
mkdir -p "$folder/other/bin"
echo mine > "$folder/other/bin/mcs4"
check_unchanged "install: $folder/other/bin/mcs4 exists, and was not installed by ./install; move it away, or name another folder: --prefix" 1 ./install --prefix "$folder/other"
verdict "$(find "$folder/other" | tr '\n' ' ')" "$folder/other $folder/other/bin $folder/other/bin/mcs4 " "a file of the user is unchanged"
rm "$folder/other/bin/mcs4"
mkdir -p "$folder/other/lib/fethsaim/mine"
check_unchanged "install: $folder/other/lib/fethsaim exists, and was not installed by ./install; move it away, or name another folder: --prefix" 1 ./install --prefix "$folder/other"
chmod a-w "$prefix/lib" "$prefix"
check_unchanged "install: cannot write in $prefix/lib; nothing was changed. Run it as root, or install to a folder of your own: ./install --prefix ~/.local" 1 \
    as_other_user ./install --prefix "$prefix"
check_unchanged "install: cannot write in $prefix; nothing was changed" 1 as_other_user ./install --uninstall --prefix "$prefix"
chmod u+w "$prefix/lib" "$prefix"
check_unchanged "install: HOME is not the path of a folder; name a folder: --prefix FOLDER" 1 as_other_user HOME= ./install
# Checks ./install on a full file system.
mkdir "$folder/small"
trap 'umount "$folder/small" 2> /dev/null || :' EXIT
if mount -t tmpfs -o size=1m tmpfs "$folder/small" 2> /dev/null; then
    verdict "$(outcome ./install --prefix "$folder/small" | sed 's/lib: .*No space left on device;/lib: no room;/')" "install: cannot write in $folder/small/lib: no room; nothing was changed
status 1" "./install on a full file system"
    verdict "$(find "$folder/small" | wc -l | tr -d ' ')" 1 "no partial files are left on a full file system"
    umount "$folder/small"
else
    echo "not run: ./install on a full file system (a file system cannot be mounted here)"
fi


# --- messages

verdict "$(./install --help | sed 1q)" "$usage" "./install --help"
verdict "$(./install -h)" "$(./install --help)" "./install -h"
verdict "$(outcome sh -c './install --help > /dev/full')" "install: not all output was written; is the disk full?
status 1" "./install --help with a full standard output"
verdict "$(outcome sh -c './install --frob 2> /dev/full')" "status 2" "./install --frob with a full standard error"
odd_prefix="$folder/it's a \$prefix"
./install --prefix "$odd_prefix" | sed -n 's/.*; to add it: //p' > "$folder/output"
verdict "$(PATH=/usr/bin:/bin sh -c '. "$0" && command -v mcs4' "$folder/output")" "$odd_prefix/bin/mcs4" "the proposed PATH"
verdict "$(./install --uninstall --prefix "$odd_prefix")" "mcs4 was removed from $odd_prefix" "./install --uninstall, with an unusual name"
verdict "$([ -e "$odd_prefix" ] || echo none)" none "a prefix that ./install has created"
