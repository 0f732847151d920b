# Sourced by `plan`, `prices`, `why`, `library` and bench/: the file that a user named as standard input, and a crate
# built where it is not up to date. That is shown on standard error: on a terminal by a line for each crate that is
# proved, elsewhere by the first line only. The script has set $tool, its name, $usage and $repository, and has
# `fail MESSAGE`, which ends it.

# check_file FILE KIND: that there is such a file
check_file() {
    case $1 in -*) fail "there is no option $1 (a file of that name is ./$1); $usage" ;; esac
    [ -e "$1" ] || fail "there is no file $1"
    [ ! -d "$1" ] || fail "$1 is a directory, not a $2"
}

# take_input FILE KIND: the file, or standard input as it is for -
take_input() {
    [ "$1" != - ] || return 0
    check_file "$1" "$2"
    { exec < "$1"; } 2> /dev/null || fail "$1 cannot be read"
}

# Counts the named crates and those below them, each once.
declare -A needs counted
count() {
    local name
    for name in $1; do
        if [ -n "${needs[$name]+listed}" ] && [ -z "${counted[$name]}" ]; then
            counted[$name]=yes
            count "${needs[$name]}"
        fi
    done
}

# list CRATE: the crate and those below it, by crates.txt, are what is counted then
list() {
    local line name
    while read -r line; do
        line=${line%%#*}
        name=${line%%:*}
        case $line in *:*) needs[${name%% *}]=${line#*:} ;; esac
    done < "$repository/crates.txt"
    counted=()
    count "$1"
}

# A sum of what the counted crates are made from: the toolchain by its version, their lines of crates.txt, their files.
sources() {
    local name folders=()
    for name in "${!counted[@]}"; do
        folders+=("crates/$name/src" "crates/$name/specs" "crates/$name/proofs")
    done
    {
        rt version < /dev/null
        for name in "${!counted[@]}"; do echo "$name: ${needs[$name]}"; done
        cd "$repository" && find "${folders[@]}" -type f -exec sha256sum {} +
    } 2> /dev/null | LC_ALL=C sort | sha256sum
}

# Goes by rt's lines, where a crate that is proved just now has two, 'crate NAME: ..' and then 'logic=proved ..'. On a
# terminal a pause shows too that something is not up to date.
progress() {
    local line crate proved=0 all=${#counted[@]}
    local first="$tool: building: up to $all crates are proved, which takes minutes the first time"
    while read -r -t 3 line || [ $? -gt 128 ]; do
        case $line in
        "crate "*": "*)
            crate=${line#crate }
            crate=${crate%%:*}
            ;;
        "" | "logic=proved "*)
            [ -n "$line" ] || [ -t 2 ] || continue
            [ -z "$first" ] || echo "$first" >&2
            first=
            [ -n "$line" ] || continue
            proved=$((proved + 1))
            [ ! -t 2 ] || echo "$tool: $proved of up to $all: $crate is proved" >&2
            ;;
        esac
    done
}

# prove CRATE VERB: has rt do that in the crate's folder, over all that it has kept
prove() {
    local log=$repository/target/$tool.log
    { mkdir -p "$repository/target" && : > "$log"; } 2> /dev/null ||
        fail "$repository/target, for the build, cannot be written"
    set -o pipefail
    (cd "$repository/crates/$1" && exec rt "$2") < /dev/null 2>&1 | tee "$log" | progress ||
        fail "$1 could not be built: see $log"
    set +o pipefail
}

# build CRATE: a program is target/bin/CRATE then, and a static library target/staticlib/libCRATE.a. rt builds a program
# only to run it, here with no input and no arguments, which does nothing but say so in the log.
build() {
    local verb=lib made=out/lib$1.a to=$repository/target/staticlib/lib$1.a sum=$repository/target/sum/$1 from
    command -v rt > /dev/null || fail "the Rattle toolchain's rt is not on the PATH"
    if [ -e "$repository/crates/$1/src/main.rt" ]; then
        verb=run made=out/$1 to=$repository/target/bin/$1
    fi
    list "$1"
    from=$(sources)
    if [ ! -e "$to" ] || [ "$(cat "$sum" 2> /dev/null)" != "$from $(sha256sum < "$to")" ]; then
        prove "$1" "$verb"
        { mkdir -p "${to%/*}" "${sum%/*}" && cp "$repository/crates/$1/$made" "$to.$$" && mv -f "$to.$$" "$to"; } \
            2> /dev/null || fail "$to cannot be written"
        # nothing that was edited meanwhile counts as built
        [ "$(sources)" != "$from" ] || echo "$from $(sha256sum < "$to")" > "$sum"
    fi
}
