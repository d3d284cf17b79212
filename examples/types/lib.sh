# shellcheck shell=sh
# What the resource types of this directory share. A program begins with
#     . "${0%"${0##*/}"}../lib.sh"
# and then
#   - it has a time limit: CCR_LIMIT, 15m where it isn't set. After it the program and all that it started are ended, and the status is 124;
#   - what it prints goes to standard error, and so to the log; the reply is what it writes to descriptor 3, as `answer` does;
#   - $program is check, in or out, $type the type's name, and $tmp a directory that is removed at the end. A program that seldom needs it sets
#     tmp_later=yes first, and calls make_tmp, outside of a subshell, before it uses $tmp, $home or $caches;
#   - $home is the server's directory: CCR_HOME, or what /etc/ccr.conf says that it is, or /var/lib/ccr, if the program was started in there.
#     Otherwise it is empty, nothing is kept in it, and caches are in ~/.cache/ccr;
#   - `request` reads the request into variables source_KEY, params_KEY and version_KEY, and refuses keys that the file `keys` beside the
#     program doesn't have. `request VARIABLE ..` starts no program where the request has no more than these texts, of which the first one is
#     needed; the others that the program uses have to be set before, to nothing.
set -eu
program=${0##*/}
case $0 in
    /*) here=${0%/*} ;;
    *) here=$(CDPATH='' cd -- "$(dirname -- "$0")" && pwd) ;;
esac
type=${here##*/}
types=${here%/*}
began_in=$PWD

say() { printf '%s\n' "$type $program: $*" >&2; }
refuse() {
    say "$*"
    exit 1
}

if [ -z "${CCR_LIMITED:-}" ]; then
    status=0
    CCR_LIMITED=1 timeout -k 10 "${CCR_LIMIT:-15m}" "$0" "$@" || status=$?
    case $status in
        124 | 137) say "no end within ${CCR_LIMIT:-15m}, so it was ended (CCR_LIMIT sets another limit)" ;;
        125) say "CCR_LIMIT is '${CCR_LIMIT:-15m}'; a limit is a number with a unit, as 30s, 15m or 2h" ;;
    esac
    exit "$status"
fi
# A program that this one starts may be a server's too, by a hook of git: it has a limit of its own.
unset CCR_LIMITED

exec 3>&1 1>&2
tmp=''
trap '[ -z "$tmp" ] || rm -rf "$tmp"' EXIT
trap 'exit 143' HUP INT TERM
# $home and $caches are known where $tmp is: what needs none of them is spared the time.
make_tmp() {
    [ -z "$tmp" ] || return 0
    tmp=$(mktemp -d)
    home=${CCR_HOME:-}
    if [ -z "$home" ]; then
        # shellcheck disable=SC1090
        [ ! -r "${CCR_CONF:-/etc/ccr.conf}" ] || . "${CCR_CONF:-/etc/ccr.conf}"
        servers=${CCR_HOME:-/var/lib/ccr}
        case $began_in/ in "$servers"/* | "$(cd "$servers" 2> /dev/null && pwd -P || echo "$servers")"/*) home=$servers ;; esac
    fi
    caches=$home/cache
    [ -n "$home" ] || caches=${XDG_CACHE_HOME:-${HOME:-}/.cache}/ccr
}
[ -n "${tmp_later:-}" ] || make_tmp

request() {
    its_request=''
    if [ $# -eq 0 ]; then
        variables=$(read_request) || exit 1
    elif IFS= read -r its_request; then
        variables=$({ printf '%s\n' "$its_request"; cat; } | read_request) || exit 1
    elif short_request "$@"; then
        return
    else
        variables=$(read_request << END
$its_request
END
        ) || exit 1
    fi
    eval "$variables"
}
read_request() { LC_ALL=C awk -v type="$type" -v program="$program" -v table="$here/keys" -f "$types/json.awk" -f "$types/request.awk"; }

# short_request VARIABLE ..: reads $its_request without a program, as the server writes it: compact, source before version, with texts of these variables
# alone. It fails where there is more in it, or anything that JSON may write in another way.
short_request() {
    case $its_request in
        *\\* | *[!\ -~]*) return 1 ;;
        '{"source":{"'*) ;;
        *) return 1 ;;
    esac
    its_member=source its_rest=${its_request#'{"source":{'}
    while :; do
        case $its_rest in '"'*'":"'*) ;; *) return 1 ;; esac
        its_rest=${its_rest#?}
        its_key=${its_rest%%\"*}
        its_rest=${its_rest#"$its_key"\"}
        case $its_rest in ':"'*) its_rest=${its_rest#??} ;; *) return 1 ;; esac
        its_value=${its_rest%%\"*}
        its_rest=${its_rest#"$its_value"}
        [ -n "$its_value" ] || return 1
        case " $* " in *" ${its_member}_$its_key "*) eval "${its_member}_$its_key=\$its_value" ;; *) return 1 ;; esac
        case $its_member$its_rest in
            'source","'* | 'version","'*) its_rest=${its_rest#??} ;;
            'source"},"version":{"'*) its_member=version its_rest=${its_rest#'"},"version":{'} ;;
            'source"}}' | 'version"}}') eval "[ -n \"\$$1\" ]"; return ;;
            *) return 1 ;;
        esac
    done
}

# cache_of TEXT: makes $cache the directory that is kept for what the text names, and locks it until the end of the program. Whoever removes
# such a directory while no program runs loses nothing but time. Nobody else may read it, as with the repositories that it is of.
cache_of() {
    cache=$caches/$(printf '%s' "$1" | sha256sum | cut -c 1-32)
    if ! (umask 0077 && mkdir -p "$cache") 2> "$tmp/reason" || ! [ -w "$cache" ]; then
        say "no cache can be kept in $cache, so all is fetched each time (CCR_HOME names another directory)"
        cache=$tmp/cache
        mkdir -p "$cache"
    fi
    exec 9> "$cache/lock"
    flock 9
}

# json text TEXT: the text in JSON. json object NAME VALUE ..: an object of texts. json metadata NAME VALUE ..: a list, as replies have it.
json() {
    LC_ALL=C awk '
        function text(s,    i, c, out) {
            out = ""
            for (i = 1; i <= length(s); i++) {
                c = substr(s, i, 1)
                if (c == "\"" || c == "\\") out = out "\\" c
                else if (c in code) out = out code[c]
                else out = out c
            }
            return "\"" out "\""
        }
        BEGIN {
            for (i = 1; i < 32; i++) code[sprintf("%c", i)] = sprintf("\\u%04x", i)
            code["\n"] = "\\n"
            code["\t"] = "\\t"
            if (ARGV[1] == "text") { print text(ARGV[2]); exit }
            for (i = 2; i + 1 < ARGC; i += 2)
                if (ARGV[1] == "object") printf "%s%s:%s", (i > 2 ? "," : "{"), text(ARGV[i]), text(ARGV[i + 1])
                else printf "%s{\"name\":%s,\"value\":%s}", (i > 2 ? "," : "["), text(ARGV[i]), text(ARGV[i + 1])
            if (ARGV[1] == "object") print (ARGC > 2 ? "}" : "{}")
            else print (ARGC > 2 ? "]" : "[]")
            exit
        }' "$@"
}

# answer VERSION [NAME VALUE ..]: the reply of `in` and `out`, with metadata. The metadata is kept for `ccr-metadata` too.
answer() {
    version=$1
    shift
    metadata=$(json metadata "$@")
    case $program in
        in) keep_metadata get "$(basename "$directory")" "$type" "$version" "$metadata" ;;
        out) keep_metadata put "$type" "$type" "$version" "$metadata" ;;
    esac
    printf '{"version":%s,"metadata":%s}\n' "$version" "$metadata" >&3
}

# keep_metadata get|put NAME TYPE VERSION METADATA: keeps what a step of a build said of its version in HOME/metadata/JOB/NUMBER/KIND-NAME.json,
# for the newest CCR_METADATA_KEEP builds of each job (1000 where it isn't set). A program of a build runs in its directory, WORK/JOB/NUMBER;
# where a launcher is, it says the build and the step's own name. That something can't be kept fails no step.
keep_metadata() {
    build_number=${CCR_BUILD:-${began_in##*/}}
    job=${began_in%/*}
    job=${CCR_JOB:-${job##*/}}
    step=${CCR_STEP:-$2}
    step=${step#"$1 "}
    case $build_number in '' | *[!0-9]*) return 0 ;; esac
    [ -n "$home" ] && [ -n "$job" ] || return 0
    of_job=$home/metadata/$job
    file=$1-$(printf '%s' "$step" | LC_ALL=C tr -c 'A-Za-z0-9._+-' _ | cut -c 1-60).json
    if (umask 0077 && mkdir -p "$of_job/$build_number") 2> "$tmp/reason" && printf '{"kind":"%s","step":%s,"type":"%s","version":%s,"metadata":%s}\n' \
        "$1" "$(json text "$step")" "$3" "$4" "$5" > "$of_job/$build_number/.$file" 2> "$tmp/reason" &&
        mv "$of_job/$build_number/.$file" "$of_job/$build_number/$file"; then
        keep=${CCR_METADATA_KEEP:-1000}
        case $keep in *[!0-9]*) say "CCR_METADATA_KEEP is '$keep'; a number of builds is wanted" && return 0 ;; esac
        # shellcheck disable=SC2012
        ls "$of_job" | sort -rn | tail -n "+$((keep + 1))" | while read -r old; do rm -rf "${of_job:?}/$old" || true; done
    else
        say "metadata can't be kept in $of_job/$build_number: $(cat "$tmp/reason")"
    fi
}
