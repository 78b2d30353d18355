# Checks that the manual's chapter about testing shows what the commands print.
# shellcheck shell=sh

. "$top/checks/lib/manual.sh"
check_chapter "Testing a program" 8
