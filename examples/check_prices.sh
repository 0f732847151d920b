# Sourced by examples/check, with its functions and its $room: price lists into cards and back, the school's own list
# first, every refusal in words, and how ./prices is called.

# PRICE LISTS: into cards and back. The programs are up to date, so that an rt that does nothing will do, and each of
# the many starts takes less.
mkdir "$room/quiet"
ln -s "$(type -P true)" "$room/quiet/rt"
PATH=$room/quiet:$PATH

# lists EXPECTED SAID COMMAND..: the command writes that list, exit status 0, and says so on standard error
lists() {
    local expected=$1 words=$2 status
    shift 2
    "$@" > "$room/list" 2> "$room/said" && cmp -s "$room/list" "$expected" && [ "$(cat "$room/said")" = "$words" ]
    status=$?
    tried "$*: '$(cat "$room/said")'" "$status"
}
left_out="prices: the card has marks or records, which are not in a price list"

plans examples/p1.card ./prices examples/q.prices 4 0 16
plans examples/p1.card ./prices examples/q-any-order.prices 4 0 16
plans examples/p1.card ./prices - 4 0 16 < examples/q.prices
plans examples/p1.card ./prices - 4 0 16 < <(single_bytes examples/q.prices)
plans examples/p3.card ./prices examples/q.prices 4 0 15
plans examples/p8.card ./prices /dev/null 1 0 0
plans examples/p9.card ./prices - 2 0 5 < <(echo "0 1 5")
lists examples/q.prices "prices: positions 4 root 0 budget 16" ./prices --list examples/p1.card
lists examples/q.prices "prices: positions 4 root 0 budget 14" ./prices --list - < examples/p4.card
lists examples/q.prices "prices: positions 4 root 0 budget 16"$'\n'"$left_out" ./prices --list examples/p5.card
lists examples/q.prices "prices: positions 4 root 0 budget 16"$'\n'"$left_out" ./prices --list examples/presses.card
lists /dev/null "prices: positions 1 root 0 budget 0" ./prices --list examples/p8.card
lists examples/hall.prices "prices: positions 32 root 0 budget 28500"$'\n'"$left_out" ./prices --list examples/hall.card

# hall's marks are left out on the way, heads and dearest have none
./prices examples/hall.prices 32 0 28500 > "$room/hall.card"
lists examples/hall.prices "prices: positions 32 root 0 budget 28500" ./prices --list "$room/hall.card"
for name in "heads 8 0 5210000" "dearest 32 0 32505794" "p10 2 0 4"; do
    read -r name numbers <<< "$name"
    ./prices --list examples/"$name".card 2> /dev/null > "$room/$name.prices"
    # shellcheck disable=SC2086
    plans examples/"$name".card ./prices "$room/$name.prices" $numbers
done
[ "$(wc -l < "$room/dearest.prices")" -eq 961 ]
tried "the list of the dearest card has 961 lines" $?

# refused lists: the line, the reason, the line itself, and nothing on standard output
faulty() {
    local words=$1 text=$2
    shift 2
    refuses 1 "$words" ./prices - "$@" < <(printf "$text")
}
first="0 1 10\n0 2 10\n"
faulty "positions is not 1 to 32" "" 0 0 16
faulty "positions is not 1 to 32" "no list" 33 40 99999999999999999999
faulty "positions is not 1 to 32" "" 4294967297 0 16
faulty "root is not below" "no list" 4 4 99999999
faulty "above 32,505,794" "no list" 4 0 32505795
faulty "line 3: a line is feeder, space, fed, space, pence" "$first"'0 3 8 \n' 4 0 16
faulty "as in '0 1 10': 0 03 8" "$first"'0 03 8\n' 4 0 16
faulty "line 3: a line is feeder" "$first"'0 3\t8\n' 4 0 16
faulty "line 1: a line is feeder" '0 1 \0\n' 4 0 16
faulty "line 1: a line is feeder" '0 1 -5\n' 4 0 16
faulty "line 1: a line is feeder" '+0 1 5\n' 4 0 16
faulty "line 3: the line is empty" "$first\n" 4 0 16
faulty "line 3: the last line has no line feed: 0 3 8" "$first"'0 3 8' 4 0 16
faulty "line 1: the line ends in a carriage return (CR)" '0 1 10\r\n0 2 10\r\n' 4 0 16
faulty "line 3: a position is not below the number of positions, 4: 0 4 8" "$first"'0 4 8\n' 4 0 16
faulty "line 1: a position is not below the number of positions, 4: 4294967296 1 8" '4294967296 1 8\n' 4 0 16
faulty "line 3: position 3 cannot feed itself: 3 3 8" "$first"'3 3 8\n' 4 0 16
faulty "line 1: position 2 is the root, which nothing feeds: 1 2 8" '1 2 8\n' 4 2 16
faulty "line 3: the price is above 1,048,574: 0 3 1048575" "$first"'0 3 1048575\n' 4 0 16
faulty "line 1: the price is above 1,048,574" '0 1 18446744073709551617\n' 4 0 16
faulty "line 3: the link 0 1 was named before, in line 1: 0 1 7" "$first"'0 1 7\n' 4 0 16
faulty "line 2: the price is above" '0 1 5\n0 1 1048575\n0 1\n' 4 0 16
faulty "line 1: a line is feeder" '\377\376\n' 4 0 16

# longer than a list can be: the first faulty line is named all the same, also where the input has no end
refuses 1 "line 1: a line is feeder" ./prices - 4 0 16 < <(yes)
refuses 1 "line 2: the link 0 1 was named before, in line 1" ./prices - 4 0 16 < <(yes "0 1 5")
refuses 1 "line 1: the line has more than 2,900 bytes" ./prices - 4 0 16 < /dev/zero
refuses 1 "line 9: the line has more than 2,900 bytes" ./prices - 4 0 16 < <(cat examples/q.prices; yes 7 | tr -d '\n')
whole=$room/dearest.prices
refuses 1 "line 962: the line has more than 2,900 bytes" ./prices - 32 0 0 < <(cat "$whole"; yes 7 | tr -d '\n')
refuses 1 "line 962: the link 0 1 was named before, in line 1" ./prices - 32 0 0 < <(cat "$whole" "$whole")
refuses 1 "line 962: the line is empty" ./prices - 32 0 0 < <(cat "$whole"; yes "")

# refused cards
refuses 1 "at least 5 bytes" ./prices --list /dev/null
refuses 1 "positions is not 1 to 32" ./prices --list - < /dev/zero
refuses 1 "too short or too long" ./prices --list "$room/early.card"
refuses 1 "too short or too long" ./prices --list - < <(yes)
refuses 1 "above 32,505,794" ./prices --list "$room/above.card"
refuses 1 "a record has kind 3" ./prices --list "$room/record.card"

# THE SCHOOL'S OWN LIST FIRST: some rows, none, all
plans examples/own.card ./prices --own examples/own.prices examples/q.prices 4 0 16
plans examples/own.card ./prices --own examples/own.prices - 4 0 16 < examples/q-any-order.prices
plans examples/own.card ./prices --own <(cat examples/own.prices) <(cat examples/q.prices) 4 0 16
plans examples/p1.card ./prices --own /dev/null examples/q.prices 4 0 16
plans examples/p1.card ./prices --own examples/q.prices /dev/null 4 0 16
plans "$room/hall.card" ./prices --own examples/hall.prices "$whole" 32 0 28500
awk '$1 % 2 == 0' examples/hall.prices > "$room/even.prices"
awk '$1 % 2 == 1' "$whole" | cat - "$room/even.prices" > "$room/mixed.prices"
./prices "$room/mixed.prices" 32 0 28500 > "$room/mixed.card"
plans "$room/mixed.card" ./prices --own "$room/even.prices" "$whole" 32 0 28500
lists examples/own.merged.prices "prices: positions 4 root 0 budget 16" ./prices --list examples/own.card
plans examples/own.merged.prices target/bin/print_merged 4 0 examples/own.prices < examples/q.prices

# refused: the school's own list first, and by its first faulty line
twice=$room/twice.prices
printf '0 1 6\n0 1 9\n' > "$twice"
again="line 2: the link 0 1 was named before, in line 1: 0 1 9"
refuses 1 "the school's own list: $again" ./prices --own "$twice" examples/q.prices 4 0 16
refuses 1 "the shipped list: $again" ./prices --own examples/own.prices "$twice" 4 0 16
refuses 1 "the school's own list: $again" ./prices --own "$twice" - 4 0 16 < <(yes)
refuses 1 "the shipped list: line 1: a line is feeder" ./prices --own examples/own.prices - 4 0 16 < <(yes)
refuses 1 "the school's own list: line 1: the line has more" ./prices --own /dev/zero examples/q.prices 4 0 16
refuses 1 "root is not below" ./prices --own examples/own.prices examples/q.prices 4 4 16
refuses 2 "--own takes the school's own list" ./prices --own
refuses 2 "is a file, and not standard input" ./prices --own - examples/q.prices 4 0 16
refuses 2 "is a file, and not standard input" ./prices --own /dev/stdin examples/q.prices 4 0 16 < examples/own.prices
refuses 2 "once and before it" ./prices --own examples/own.prices --list examples/p1.card
refuses 2 "three numbers" ./prices --own examples/own.prices 4 0 16
refuses 2 "no file examples/no-such.prices" ./prices --own examples/no-such.prices examples/q.prices 4 0 16
refuses 2 "a directory, not a price list" ./prices --own examples examples/q.prices 4 0 16
refuses 0 "refused 20 list 1 line 2" target/bin/print_merged 4 0 "$twice" < "$twice"
refuses 0 "refused 20 list 2 line 2" target/bin/print_merged 4 0 examples/own.prices < "$twice"
refuses 0 "refused 2" target/bin/print_merged 0 0 examples/own.prices < examples/q.prices
refuses 0 "usage" target/bin/print_merged 4 0
refuses 0 "are numbers" target/bin/print_merged 4 x examples/own.prices
refuses 0 "cannot be opened" target/bin/print_merged 4 0 examples/no-such.prices
refuses 0 "more than 13,454 bytes" target/bin/print_merged 4 0 examples/own.prices < /dev/zero
refuses 0 "cannot read a list" target/bin/print_merged 4 0 examples/own.prices < examples

# how it is called
./prices --help > "$room/usage" && grep -q '^usage: prices \[--own SCHOOL\] LIST POSITIONS ROOT BUDGET' "$room/usage"
tried "prices --help" $?
plans "$room/usage" ./prices -h
refuses 2 "usage: prices" ./prices
refuses 2 "usage: prices" ./prices "" 4 0 16
refuses 2 "three numbers" ./prices examples/q.prices
refuses 2 "three numbers" ./prices examples/q.prices 4 0
refuses 2 "three numbers" ./prices examples/q.prices 4 0 16 16
refuses 2 "'four' is no number" ./prices examples/q.prices four 0 16
refuses 2 "'' is no number" ./prices examples/q.prices 4 "" 16
refuses 2 "'-1' is no number" ./prices examples/q.prices 4 0 -1
refuses 2 "no option --no-such" ./prices --no-such 4 0 16
refuses 2 "no option --card" ./prices --card
refuses 2 "--list takes one card" ./prices --list
refuses 2 "--list takes one card" ./prices --list examples/p1.card examples/p3.card
refuses 2 "no file examples/no-such.prices" ./prices examples/no-such.prices 4 0 16
refuses 2 "no file examples/no-such.card" ./prices --list examples/no-such.card
refuses 2 "a directory, not a price list" ./prices examples 4 0 16
refuses 2 "a directory, not a card" ./prices --list examples
refuses 2 "cannot be read" ./prices - 4 0 16 < examples
refuses 2 "cannot read" ./prices --list - < examples
if [ -c /dev/full ]; then
    ./prices examples/q.prices 4 0 16 2> "$room/said" > /dev/full
    [ $? -eq 2 ] && grep -q 'cannot write' "$room/said"
    tried "a card that cannot be written" $?
    ./prices --list examples/p1.card 2> "$room/said" > /dev/full
    [ $? -eq 2 ] && grep -q 'cannot write' "$room/said"
    tried "a list that cannot be written" $?
fi
ln -s "$here/prices" "$room/links/prices"
plans examples/p1.card "$room/links/prices" examples/q.prices 4 0 16
cp prices "$room/copy"
refuses 2 "not the planner's repository" "$room/copy" examples/q.prices 4 0 16
refuses 2 "rt is not on the PATH" env PATH="$room/without" ./prices examples/q.prices 4 0 16
exits 0 env PATH="$room/busy:$PATH" ./prices - 4 0 16 < examples/q.prices
