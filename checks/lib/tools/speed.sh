# Checks that tools/speed runs, and that the program accepts all of its lines.
# shellcheck shell=sh

verdict "$(outcome tools/speed 1 | tail -n 1)" "status 0" "tools/speed"
