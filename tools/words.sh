# What the scripts of bash in this folder have alike in reading their words. They source it.
#
# A script's head says what it does, and has its usage line. --help prints that line and then the rest, and does nothing else.

# Ends with the usage line of the script.
refuse_words() {
    sed -n 's/^# \(usage: .*\)/\1/p' "$0" >&2
    exit 2
}

for word; do
    if [ "$word" = --help ] || [ "$word" = -h ]; then
        sed -n 's/^# \(usage: .*\)/\1\n/p' "$0"
        sed -n -e 1d -e '/^#/!q' -e '/^# usage: /,/^#$/d' -e 's/^# \{0,1\}//p' "$0"
        exit
    fi
done
