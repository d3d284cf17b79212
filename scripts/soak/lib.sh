# What the scripts beside this one share, which read it.
tried=0 wrong=0

# same WHAT WANTED CAME: compares, and says it
same() {
    tried=$((tried + 1))
    if [ "$2" = "$3" ]; then
        echo "as wanted: $1"
    else
        printf 'wrong: %s\nwanted: %s\ncame:   %s\n' "$1" "$2" "$3"
        wrong=$((wrong + 1))
    fi
}

# counted: the last line, and the status
counted() {
    echo "$tried tried, $wrong wrong"
    [ $wrong -eq 0 ]
}
