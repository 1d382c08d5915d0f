#compdef cip
# Completion of cip's commands and options for zsh.

local -a commands labelling
commands=(
    'annotate:writes the file back with a data item CIP_LABELS in each record'
    'explain:writes each unit with its label, or with the reason why it has none'
    'make:writes made-up records, the same at each call'
    'trial:labels made-up records, and counts what it finds'
    'set:annotates, and corrects the wedge of one stereocentre'
    'mirror:annotates the mirror images'
    'groups:writes both letters of each stereocentre in an enhanced stereo group'
    'axes:writes the labels of cumulenes and biaryl axes, which annotate leaves out'
    'help:writes which options each command takes'
)
labelling=(
    '--nodes[how many nodes the digraph of a unit may have]:N:'
    '--workers[how many records are labelled at once]:N:'
    '--rule1b[the wording of Rule 1b]:Y:(2013 2018)'
)

if (( CURRENT == 2 )); then
    _describe command commands
    return
fi
words=("${words[@]:1}")
(( CURRENT-- ))
case $words[1] in
    annotate|explain|mirror|groups|axes) _arguments $labelling ;;
    make) _arguments '--start[the number of the first made record]:N:' \
        '--records[how many records are made]:N:' ;;
    trial) _arguments '--start[the number of the first made record]:N:' \
        '--records[how many records are made]:N:' \
        $labelling ;;
    set) _arguments '--record[the number of the record to change]:N:' \
        '--atom[the number of the stereocentre'\''s atom]:N:' \
        '--letter[the letter to set]:L:(R S r s)' \
        $labelling ;;
esac
