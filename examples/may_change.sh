#!/bin/sh
# may_change.sh TOKEN
#
# Reads lines of SDDL and says of each whether the token may change anything of that file or folder: yes, no, or unknown
# and why. --want would need all of its rights at once, so this asks for the maximum and tests the mask. An ACE for an
# object type needs a question of its own, with --object.
CHANGES=0xd0156
folder=$(mktemp -d) || exit 2
trap 'rm -rf "$folder"' EXIT
cat > "$folder/lines"
sdtool check --from sddl --token "$1" --maximum < "$folder/lines" > "$folder/answers"
[ $? -le 1 ] || exit 2
paste -d ' ' "$folder/answers" "$folder/lines" | tr -d '\r' | while read -r verdict mask line; do
    case $verdict,$line in
    error,*) echo "unknown: $verdict $mask" ;;
    *,) echo "unknown: no descriptor" ;;
    *,*\([Oo][AaDd]\;*) echo "unknown: an ACE is for an object type" ;;
    granted,*) if [ $((mask & CHANGES)) -eq 0 ]; then echo no; else echo yes; fi ;;
    denied,*) echo no ;;
    *) exit 2 ;;
    esac
done
