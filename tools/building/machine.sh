#!/bin/sh
# The option --machine of numaplan's words, which isn't the program's: ./numaplan takes these two functions,
# and so does an installed numaplan, which is this file with installed.sh behind it. Not proved.

# Whether one of the words is --machine.
asks_machine() {
    for word; do
        case $word in
            --) return 1 ;;
            --machine | --machine=*) return 0 ;;
        esac
    done
    return 1
}

# What the help of a word, or of none, tells of it.
tell_machine() {
    case $1 in
        '' | run | check | predict | diff | moves | explain | report | replay | shell)
            echo
            echo "Commands that take one script also have an option, by a script that is not proved:"
            echo "      --machine <FORM>"
            echo "          The machine, whose lines come before the scripts: what numactl --hardware or"
            echo "          lstopo --of xml prints, or a script, in a file, a pipe or as - for standard"
            echo "          input; hwloc's synthetic text; a copy of /sys/devices/system/node; or live, this"
            echo "          machine"
            ;;
    esac
}
