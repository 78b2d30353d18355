# Checks that ./install rejects a list of installed files that has an empty name or a name outside of the installation, and changes nothing.
# shellcheck shell=sh disable=SC2154

make_home
prefix=$folder/prefix
./install --prefix "$prefix" > "$folder/output"
list=$prefix/lib/fethsaim/installed
cp "$list" "$folder/list"
echo victim > "$folder/victim"
for line in "file ../victim" "file $folder/victim" "file $(sha256sum < "$folder/victim" | cut -d ' ' -f 1) ../victim" \
    "file share/../../victim" "file .." "made ../other" "made $folder/other" "file "; do
    echo "$line" >> "$list"
    name=${line##* }
    for start_command in "--prefix $prefix" "--uninstall --prefix $prefix"; do
        # shellcheck disable=SC2086
        check_unchanged "install: $list lists the name ${name:-(none)}, which is not below $prefix; correct the list; nothing was changed" 1 ./install $start_command
    done
    cp "$folder/list" "$list"
done
verdict "$(cat "$folder/victim")" victim "a file outside of the prefix"
