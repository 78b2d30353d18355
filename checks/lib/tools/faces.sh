# Checks that the bench prints the board in `checks/faces` unchanged. (`js/test/face.test.js` tests the front panels of this board.)
# shellcheck shell=sh

{
    echo wire
    cat checks/faces/board.toml
    printf '.\nboard\n'
} | new_session faces
verdict "$(sed 1,3d "$folder/answers")" "$(cat checks/faces/board.toml)" "the board in checks/faces, as the bench prints it"
