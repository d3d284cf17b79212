# shellcheck shell=sh
# What the launchers of this directory share. One begins with
#     . "${0%/*}/common.sh"
# and has then $kind, $job, $number, $name, $directory, $timeout, the program with its arguments as "$@", and what is below. A check, a get and a put are started as they
# are, here: only tasks go elsewhere.
#
# Settings are in the file beside the launcher whose name has .conf behind it. None is taken from the environment.
usage() { echo "usage: ${0##*/} KIND JOB NUMBER NAME DIRECTORY [timeout=TIME] -- PROGRAM [ARGUMENT ..]" >&2; exit 2; }
[ $# -gt 6 ] || usage
kind=$1 job=$2 number=$3 name=$4 directory=$5
shift 5
unset timeout
# A word that isn't known is one of a newer server.
while [ $# -gt 0 ] && [ "$1" != -- ]; do
    case $1 in timeout=*) timeout=${1#timeout=} ;; esac
    shift
done
[ $# -gt 1 ] || usage
shift
[ "$kind" = task ] || exec "$@"
PATH=/usr/local/bin:/usr/bin:/bin
# shellcheck disable=SC1090
[ ! -r "$0.conf" ] || . "$0.conf"
say() { printf '%s: %s %s: task %s: %s\n' "${0##*/}" "$job" "$number" "$name" "$1" >&2; }

# The task's own variables, as a text for the shell that starts the program. It is given on standard input: an argument can be seen by everybody, and
# a variable of that name here would be one of this program.
own=$(LC_ALL=C sed -nz "/^CCR_VAR_[A-Za-z_][A-Za-z0-9_]*=/!d; s/'/'\\\\''/g; s/^CCR_VAR_\([A-Za-z0-9_]*\)=\(.*\)\$/unset CCR_VAR_\1;export \1='\2';/p" < "/proc/$$/environ")
# quoted TEXT: the text as a word of the shell
quoted() { printf "%s\n" "$1" | sed "s/'/'\\\\''/g; 1s/^/'/; \$s/\$/'/"; }
starting="export CCR_JOB=$(quoted "$job") CCR_BUILD=$number CCR_STEP=$(quoted "$name")
$own
exec \"\$@\" < /dev/null"

# Where it can't be started, this is ended by a signal: a status would be the task's own.
not_started() {
    say "not started: $1"
    kill -USR1 $$
}
# run COMMAND ..: runs what starts the task, with $starting on standard input, and leaves its status in $status. `ends`, which the launcher has, ends the
# task; it is called for a signal, for an abort, and at $limit.
limit=${limit:-7200}
# seconds TIME: what 90s, 30m, 1h30m or 2d comes to, in $s
seconds() {
    s=0 rest=$1
    while [ -n "$rest" ]; do
        count=${rest%%[smhd]*}
        case $count in '' | *[!0-9]* | ?????????*) return 1 ;; esac
        count=${count#"${count%%[!0]*}"}
        rest=${rest#"${rest%%[smhd]*}"}
        case $rest in m*) unit=60 ;; h*) unit=3600 ;; d*) unit=86400 ;; *) unit=1 ;; esac
        s=$((s + ${count:-0} * unit)) rest=${rest#?}
    done
    [ $s -gt 0 ]
}
# The step's timeout in the pipeline, where that is less.
if [ -n "${timeout+given}" ]; then
    if ! seconds "$timeout"; then
        say "its timeout isn't a time such as 30m, and has no effect: $timeout"
    elif [ "$s" -lt "$limit" ]; then
        limit=$s
    fi
fi
after() { :; } # what is to be done before it ends by a signal
run() {
    stop=
    trap 'stop=yes' INT TERM HUP
    printf '%s\n' "$starting" | "$@" &
    task=$!
    begun=$(date +%s)
    while kill -0 $task 2> /dev/null; do
        if [ -n "$stop" ] || [ -d "${directory%/*}/abort-$number" ] || [ $(($(date +%s) - begun)) -ge "$limit" ]; then
            why=signal
            [ -n "$stop" ] || { why=aborted && [ -d "${directory%/*}/abort-$number" ]; } || why="no end within $limit s"
            say "$why: the task is told to end"
            ends
            wait $task
            status=124
            case $why in "no end"*) ;; *) after; trap - TERM; kill -TERM $$ ;; esac
            return
        fi
        sleep 0.5
    done
    status=0
    wait $task || status=$?
}
