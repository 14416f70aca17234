#!/bin/sh
# answers.sh PROGRAM: questions that users have, each with the program's answer. `make run` ends with it.
sdtool=$1

# Asks about one line of SDDL, with the words of a command.
ask() {
    question=$1 line=$2
    shift 2
    printf '%s %s? ' "$question" "$line"
    printf '%s\n' "$line" | "$sdtool" "$@" --from sddl
}

# A token lists the user's groups, and those of everybody who logs on.
ask 'May Users read' 'O:BAD:(A;;FR;;;BU)(A;;FA;;;BA)' check --token BU,WD,AU --want FR
ask 'What may Users do with' 'O:BAD:(A;;FR;;;BU)(A;;SD;;;WD)' check --token BU,WD,AU --maximum
ask 'What does a new file get in' 'D:(A;OICI;FR;;;BU)' derive --kind file --owner BA --group BU
ask 'What is wrong with' 'D:(A;;FA;;;Everyone)' convert
printf 'What does it say?\n'
printf '%s\n' 'O:BAD:(A;CI;FR;;;BU)' | "$sdtool" explain --from sddl
