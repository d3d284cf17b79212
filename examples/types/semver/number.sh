# shellcheck shell=sh
# What the programs of the resource type semver share.
# shellcheck disable=SC2154
case $source_driver in '' | git) ;; *) refuse "source.driver: $source_driver: only git is here; for another, wrap Concourse's own type" ;; esac
case $source_file in /* | *..*) refuse "source.file: $source_file: wanted is the path of a file in the repository" ;; esac
first=${source_initial_version:-0.0.0}
"$here/bump" "$first" '' > "$tmp/reason" || refuse "source.initial_version: $first"

# number_upstream: fetches the branch's newest commit into the repository $own, and sets $number to what the file has there.
number_upstream() {
    told git -C "$own" fetch --quiet --depth 1 --no-tags -- "$uri" "refs/heads/$branch" || exit
    number=''
    if git -C "$own" cat-file -e "FETCH_HEAD:$source_file" 2> "$tmp/reason"; then
        number=$(git -C "$own" show "FETCH_HEAD:$source_file" | tr -d ' \t\r\n')
    fi
    number=${number:-$first}
    "$here/bump" "$number" '' > "$tmp/reason" || refuse "what is wrong is the file $source_file of the branch $branch at $uri"
}
