# Sourced by examples/check, with its functions and its $room: why a link is closed, open or sure. The texts of why/,
# the links of the cards, judged by check_why.awk, every refusal in words, and how ./why is called.

# The program is up to date, so that an rt that does nothing will do, and each of the many starts takes less.
mkdir -p "$room/quiet"
ln -sf "$(type -P true)" "$room/quiet/rt"
PATH=$room/quiet:$PATH

# THE TEXTS: NAME.FEEDER-FED.txt
for text in examples/why/*.txt; do
    IFS=.- read -r name feeder fed _ <<< "${text##*/}"
    plans "$text" ./why examples/"$name".card "$feeder" "$fed"
done
plans examples/why/p1.2-3.txt ./why - 2 3 < examples/p1.card
plans examples/why/p1.2-3.txt ./why - 2 3 < <(single_bytes examples/p1.card)
plans examples/why/p1.2-3.txt ./why examples/p1.card 002 03
plans examples/why/recorded.0-1.txt ./why <(cat examples/recorded.card) 0 1

# EACH LINK. says NAME FEEDER..: what is said of all links of these feeders of a card
says() {
    local name=$1 feeder fed n
    shift
    read -r _ n _ < examples/"$name".txt
    for feeder in "$@"; do
        for ((fed = 0; fed < n; fed++)); do
            echo "link $feeder $fed"
            target/bin/print_why "$feeder" "$fed" < examples/"$name".card
        done
    done
}

# judge NAME MARKS: what is wrong with $room/why, said of that card with these marks, and how many links it is of
judge() {
    target/bin/print_prices < examples/"$1".card 2> /dev/null > "$room/prices"
    awk -v marks="$2" -f examples/check_why.awk file=1 examples/"$1".txt file=2 "$room/prices" file=3 "$room/why"
}

# judged LINKS NAME MARKS FEEDER..: the links of these feeders are what is said, and so many
judged() {
    local links=$1 name=$2 marks=$3 found
    shift 3
    says "$name" "$@" > "$room/why"
    found=$(judge "$name" "$marks")
    [ "$found" = "$links links" ]
    tried "the links of $name: ${found%%$'\n'*}" $?
}

for name in p1 p3 p4; do judged 16 $name "" 0 1 2 3; done
judged 16 p5 "pinned 2 1" 0 1 2 3
judged 16 p6 "banned 0 1" 0 1 2 3
judged 16 p7 "pinned 2 1 pinned 1 2" 0 1 2 3
judged 16 pins "pinned 0 1 pinned 2 1" 0 1 2 3
judged 1 p8 "" 0
judged 4 p9 "" 0 1
judged 4 p10 "" 0 1
judged 16 own "" 0 1 2 3
judged 16 presses "pinned 2 1 banned 0 1 banned 0 3" 0 1 2 3
judged 16 recorded "banned 0 1 banned 2 3 pinned 0 3 pinned 1 2" 0 1 2 3
judged 64 heads "" 0 1 2 3 4 5 6 7
judged 96 hall "pinned 8 27 banned 18 20" 0 8 18
judged 32 dearest "" 5
judged 32 longest "" 31

# and the judge notices: a wrong word, price, feeder, total, cut, amount, number, or one thing too few
planted() {
    says "$1" 0 1 2 3 | sed "$3" > "$room/why"
    [ "$(judge "$1" "$2" | wc -l)" -gt 1 ]
    tried "what is planted in the links of $1: $3" $?
}
planted p1 "" 's/^open/sure/'
planted p1 "" 's/^closed: the cheapest tree/sure: the cheapest tree/'
planted p1 "" 's/^feed 2 from 1 price 1$/feed 2 from 1 price 2/'
planted p1 "" 's/^feed 2 from 1 price 1$/feed 2 from 3 price 1/'
planted p1 "" 's/^feed 2 from 1/feed 1 from 2/'
planted p1 "" '/^feed 2/d'
planted p1 "" 's/total 15$/total 16/'
planted p1 "" 's/costs 20/costs 19/'
planted p1 "" 's/budget is 16/budget is 17/'
planted p1 "" 's/^cut 1 pence 2/cut 1 pence 3/'
planted p1 "" 's/^cut 1 pence 10/cut 1 3 pence 10/'
planted p1 "" 's/^cut 1 2 3 pence/cut 0 1 2 3 pence/'
planted p1 "" '/^cut 3/d'
planted p1 "" '/^without it/d'
planted p3 "" 's/the budget is/the cheapest of all costs 15, the budget is/'
planted p4 "" 's/, the cheapest of all costs 15//'
planted p5 "pinned 2 1" 's/^cut 1 pence 0/cut 1 2 pence 0/'
planted p5 "pinned 2 1" 's/2→1 is pinned/0→1 is pinned/'
planted p6 "banned 0 1" 's/^closed: the cheapest.*/closed: banned on the card/'
planted p7 "pinned 2 1 pinned 1 2" 's/^cut 1 2 pence 0/cut 1 pence 0/'

# refused: the line, and the words
said_no() {
    local status
    "${@:3}" > "$room/line" 2> "$room/said"
    status=$?
    [ $status -eq 1 ] && [ "$(cat "$room/line")" = "refused $1" ] && [ "$(cat "$room/said")" = "why: $2" ]
    tried "${*:3}: status $status, '$(cat "$room/said")'" $?
}
said_no 9 "0→4: a position is not on the card" ./why examples/p1.card 0 4
said_no 9 "4→0: a position is not on the card" ./why examples/p1.card 4 0
said_no 9 "0→4294967297: a position is not on the card" ./why examples/p1.card 0 4294967297
said_no 10 "1→1: there is no such link on the card" ./why examples/p1.card 1 1
said_no 10 "1→0: there is no such link on the card" ./why examples/p1.card 1 0
said_no 10 "3→2: there is no such link on the card" ./why examples/p1.card 3 2
said_no 1 "a card has at least 5 bytes" ./why /dev/null 0 1
said_no 2 "the number of positions is not 1 to 32" ./why /dev/zero 0 1
said_no 3 "the card is too short or too long for its positions and records" ./why "$room/early.card" 0 1
said_no 5 "the budget is above 32,505,794" ./why "$room/above.card" 9 9

# how it is called
./why --help > "$room/usage" && grep -q '^usage: why CARD FEEDER FED' "$room/usage"
tried "why --help" $?
plans "$room/usage" ./why -h
refuses 2 "usage: why" ./why
refuses 2 "usage: why" ./why "" 2 3
refuses 2 "two numbers" ./why examples/p1.card
refuses 2 "two numbers" ./why examples/p1.card 2
refuses 2 "two numbers" ./why examples/p1.card 2 3 1
refuses 2 "two numbers" ./why - < examples/p1.card
refuses 2 "'two' is no number" ./why examples/p1.card two 3
refuses 2 "'+2' is no number" ./why examples/p1.card +2 3
refuses 2 "'-2' is no number" ./why examples/p1.card 2 -2
refuses 2 "'2.0' is no number" ./why examples/p1.card 2.0 3
refuses 2 "'' is no number" ./why examples/p1.card "" 3
refuses 2 "'examples/p1.card' is no number" ./why 2 3 examples/p1.card
refuses 2 "at most 64 digits" ./why examples/p1.card 2 "$(printf '1%.0s' {1..65})"
refuses 2 "no option --all" ./why --all examples/p1.card 2 3
refuses 2 "no file examples/no-such.card" ./why examples/no-such.card 2 3
refuses 2 "a directory, not a card" ./why examples 2 3
refuses 2 "cannot read" ./why - 2 3 < examples
refuses 0 "usage" target/bin/print_why 2
refuses 0 "are numbers" target/bin/print_why 2 x
if [ -c /dev/full ]; then
    ./why examples/p1.card 2 3 2> "$room/said" > /dev/full
    [ $? -eq 2 ] && grep -q 'cannot be written' "$room/said"
    tried "a text that cannot be written" $?
    target/bin/print_why 2 3 < examples/p1.card 2> "$room/said" > /dev/full
    grep -q 'cannot write' "$room/said"
    tried "a line that cannot be written" $?
fi
ln -s "$here/why" "$room/links/why"
plans examples/why/p1.2-3.txt "$room/links/why" examples/p1.card 2 3
cp why "$room/copy"
refuses 2 "not the planner's repository" "$room/copy" examples/p1.card 2 3
refuses 2 "rt is not on the PATH" env PATH="$room/without" ./why examples/p1.card 2 3
exits 0 env PATH="$room/busy:$PATH" ./why - 2 3 < examples/p1.card
