# shellcheck shell=sh
# What the programs of the resource type dir share.
# shellcheck disable=SC2154
path=${source_path%/}
case $path in /*) ;; *) refuse "source.path: $source_path: a path has to begin with /, since each program runs in another directory" ;; esac

# The versions that are there, oldest first: lines NUMBER CHECKSUM.
versions() {
    [ -d "$path" ] || return 0
    # shellcheck disable=SC2012
    ls "$path" | sed -n 's/^\([1-9][0-9]*\)\.\([0-9a-f]\{64\}\)\.tar$/\1 \2/p' | sort -n
}
