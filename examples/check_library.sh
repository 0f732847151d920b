# Sourced by examples/check, with its functions and its $room: the library for C and Rust as a user would install and
# link it, the consoles in both languages, the cases and the test of every function, and the limits on size and stack.
# What needs a compiler that is not there is not tried, and a line says so.

# untried TOOL WHAT: says what is left out
untried() {
    echo "examples/check: left out, as there is no $1: $2" >&2
}

# THE FOLDER: an archive and a header
library=$room/library
./library "$library" > /dev/null || exit 2
printf '%s\n' "$library/lib/libfeed_planner.a" "$library/include/feed_planner.h" > "$room/names"
plans "$room/names" ./library "$library"
cmp -s include/feed_planner.h "$library/include/feed_planner.h" && [ -s "$library/lib/libfeed_planner.a" ]
tried "the archive and the header are in the folder" $?

# how it is called
./library --help > "$room/usage" && grep -q '^usage: library FOLDER' "$room/usage"
tried "library --help" $?
plans "$room/usage" ./library -h
refuses 2 "usage: library" ./library
refuses 2 "usage: library" ./library ""
refuses 2 "usage: library" ./library "$library" "$library"
refuses 2 "no option --no-such" ./library --no-such
refuses 2 "a file, not a folder" ./library examples/p1.card
refuses 2 "cannot be written" ./library /dev/null/folder
ln -s "$here/library" "$room/links/library"
plans "$room/names" "$room/links/library" "$library"
cp library "$room/copy"
refuses 2 "not the planner's repository" "$room/copy" "$library"
ln -s "$(command -v mkdir)" "$room/without/mkdir"
refuses 2 "rt is not on the PATH" env PATH="$room/without" ./library "$library"
plans "$room/names" env PATH="$room/idle:$PATH" ./library "$library"
exits 0 env PATH="$room/busy:$PATH" ./library "$library"
mkdir "$room/failing"
ln -s "$(type -P false)" "$room/failing/rt"
refuses 2 "could not be built: see" env PATH="$room/failing:$PATH" ./library "$library"

# WHAT IS SAID OF IT: README's ten lines are a file that is compiled below, and its table has the header's names
sed -n '/^## Use it from C$/,/^## /s/^    //p' README.md | sed -n '/^#include/,/^}/p' | cmp -s - examples/first.c
tried "README's program is examples/first.c" $?
sed -n '/^enum feed_answer/,/^}/s/^ *\(FEED_[A-Z_]*\) = \([1-9][0-9]*\).*/| \2 | `\1` |/p' include/feed_planner.h |
    cmp -s - <(grep -o '^| [0-9]* | `FEED_[A-Z_]*` |' README.md)
tried "README's table has the names of the header" $?

# Lines 'function answer': by the comments of the header, and by library_calls.h, which the test of every function uses
answers_of_header() {
    awk '/^enum feed_answer/, /^}/ { is_answer[$1] = 1 }
        /^\/\/ Answers:/ { text = "" }
        /^\/\// { text = text substr($0, 3) }
        /^uint32_t feed_/ {
            sub(/\(.*/, "", $2)
            if ($2 == "feed_judge") card = plain = text
            gsub(/FEED_BAD_RECORD/, "", plain)
            if (text ~ /THE LINE.S ANSWERS:/) line = substr(text, index(text, "THE LINE"))
            named = text " FEED_ACCEPTED"
            gsub(/the card.s answers/, card, named); gsub(/a plain card.s answers/, plain, named)
            gsub(/the line.s answers/, line, named)
            for (k = split(named, words, /[^A-Z_]+/); k > 0; k--) if (words[k] in is_answer) print $2, words[k]
        }' include/feed_planner.h | sort -u
}
answers_of_calls() {
    cc -E -P -I include examples/library_calls.h | tr '\n{' ' \n' | awk -F '"' '$2 == "feed_" {
        for (k = split($0, words, /[^A-Z_]+/); k > 0; k--) if (words[k] ~ /^FEED_/) print $2 $4, words[k] }' | sort -u
}

# LIMITS
if command -v size > /dev/null; then
    read -r code data bss < <(size -t "$library/lib/libfeed_planner.a" | awk 'END { print $1, $2, $3 }')
    [ "$code" -le 65536 ] && [ "$data" -eq 0 ] && [ "$bss" -eq 0 ]
    tried "64 KiB of code and no writable data: $code, $data, $bss" $?
else
    untried size "the size of the library"
fi
if command -v nm > /dev/null; then
    needed=$(nm -u "$library/lib/libfeed_planner.a" | awk 'NF == 2 { print $2 }' | sort -u | paste -s -d ' ')
    [ "$needed" = "memcpy memset" ]
    tried "nothing needed from outside but memcpy and memset: $needed" $?
else
    untried nm "what the library needs from outside"
fi

# IN C: builds NAME SOURCE WORD.., a program in $room with no warning
builds() {
    local name=$1 source=$2
    shift 2
    cc -std=c11 -O1 -Wall -Wextra -Werror "$@" -I "$library/include" -o "$room/$name" "$source" \
        -L "$library/lib" -lfeed_planner
    tried "cc builds $source $*" $?
}
# counts NAME: the test of every function ends well, in one line
counts() {
    "$room/$1" examples/*.card > "$room/counts" && [ "$(wc -l < "$room/counts")" -eq 1 ]
    tried "the test of every function, $1" $?
}
# cases NAME: every case agrees, and a line says how many
cases() {
    "$room/$1" > "$room/cases" && grep -qx '[1-9][0-9]* cases agree' "$room/cases"
    tried "the cases of every function, $1" $?
}
if command -v cc > /dev/null; then
    builds console examples/console.c
    plans examples/console.txt "$room/console" examples/p1.card
    builds first examples/first.c
    plans examples/p9.txt "$room/first"
    builds library_cases examples/library_cases.c
    cases library_cases
    [ -n "$(answers_of_header)" ] && [ "$(answers_of_header)" = "$(answers_of_calls)" ]
    tried "examples/library_calls.h has the answers of the header" $?
    builds library_test examples/library_test.c
    counts library_test
    builds stack bench/stack.c
    "$room/stack" examples/*.card > "$room/stacks"
    status=$?
    tried "64 KiB of stack for every call: $(tail -n 1 "$room/stacks")" "$status"
    sane="-g -fsanitize=address,undefined -fno-sanitize-recover=all"
    # shellcheck disable=SC2086
    if echo 'int main(void) { return 0; }' | cc $sane -x c -o "$room/sane" - 2> /dev/null && "$room/sane"; then
        builds console_sane examples/console.c $sane
        plans examples/console.txt "$room/console_sane" examples/p1.card
        builds library_cases_sane examples/library_cases.c $sane
        cases library_cases_sane
        builds library_test_sane examples/library_test.c $sane
        counts library_test_sane
    else
        untried "cc -fsanitize=address,undefined" "the console, the cases and the test under sanitizers"
    fi
else
    untried cc "the library from C"
fi

# THE HEADER IN C++
if command -v c++ > /dev/null; then
    echo '#include "feed_planner.h"' |
        c++ -std=c++11 -Wall -Wextra -Wpedantic -Werror -I "$library/include" -fsyntax-only -x c++ -
    tried "the header in C++" $?
else
    untried c++ "the header in C++"
fi

# IN RUST
if command -v rustc > /dev/null; then
    rustc --edition 2024 -O -D warnings -o "$room/console_rust" examples/console.rs \
        -L native="$library/lib" -l static=feed_planner
    tried "rustc builds examples/console.rs" $?
    plans examples/console.txt "$room/console_rust" examples/p1.card
else
    untried rustc "the library from Rust"
fi
