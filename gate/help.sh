# Each script of this folder sources this first. With -h or --help the script prints its head on standard output and
# ends. It takes no other word, except --write if its head names --write.
help() {
    local head=$(sed -n '2,/^set/ { /^set/d; s/^# \{0,1\}//p; }' "$0") word=
    [[ $head != *--write* ]] || word=--write
    local usage="usage: gate/${0##*/}${word:+ [$word]}"
    if [[ "$*" = -h || "$*" = --help ]]; then
        echo "$usage" && echo "$head" && exit
    elif [[ "$*" != "" && "$*" != "$word" ]]; then
        echo "$usage; --help says what it does" >&2 && exit 2
    fi
}
help "$@"
