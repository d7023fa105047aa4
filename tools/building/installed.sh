
# numaplan as it is installed: the program, which is proved, lies in libexec/numaplan.
here=$0
[ ! -L "$here" ] || here=$(readlink -f "$here")
libexec=${here%/*}/../libexec/numaplan
! asks_machine "$@" || exec "$libexec/on-machine" "$libexec/numaplan" "$@"
case "$*" in
    --help | -h | help) asked='' ;;
    'help '*) asked=${2:-} ;;
    *' --help' | *' -h') asked=$1 ;;
    *) exec "$libexec/numaplan" "$@" ;;
esac
"$libexec/numaplan" "$@" || exit
tell_machine "$asked"
