# Judges what print_why says of the links of a card by its prices and states, with no plan of the planner:
#
#     awk -v marks=MARKS -f check_why.awk file=1 TEXT file=2 LIST file=3 SAID
#
# MARKS are the card's, as in 'pinned 2 1 banned 0 1'; TEXT is what print_plan prints for it, LIST its price list, and
# SAID has for each link a line 'link FEEDER FED' and what is said of it. A link must be closed, open or sure as TEXT's
# rows have it, by a mark or by trees; a tree must be one of the links that remain, and the cuts below it must prove its
# total; the numbers of the first line must be those of TEXT. The last line is how many links were judged; each fault is
# a line before it.

function fault(what) {
    print link ": " what
}

# a number without its commas
function plain(number) {
    gsub(",", "", number)
    return number + 0
}

# whether a link remains, with the link that is judged alone into its position, or without it
function remains(from, to) {
    if ((from, to) in banned || (to in pin && pin[to] != from) || to in unfed) return 0
    return to != fed || (with ? from == feeder : from != feeder)
}

function enters(cut, from, to) {
    return index(inside[cut], " " to " ") && !index(inside[cut], " " from " ")
}

# whether the feed lines make a tree of links that remain; and their prices' sum
function judge_tree(    v, k, at) {
    sum = 0
    for (v = 0; v < n; v++) {
        if (v == root) continue
        if (!(v in from) || !((from[v], v) in price) || !remains(from[v], v)) { fault("no link into " v); return }
        if (paid[v] != price[from[v], v]) fault("another price into " v)
        sum += paid[v]
        at = v
        for (k = 0; at != root && k < n; k++) at = from[at]
        if (at != root) fault("a ring at " v)
    }
    if (sum != total) fault("the tree costs " sum ", not " total)
}

# whether no link that remains costs less than the cuts that it enters, and the cuts add up to the total
function judge_cuts(    pair, ends, charged, k) {
    sum = 0
    for (k = 1; k <= cuts; k++) {
        sum += value[k]
        if (index(inside[k], " " root " ") || inside[k] == " ") fault("no cut: " inside[k])
        if ((value[k] == 0) != !tree) fault("a cut of " value[k])
    }
    if (sum != total) fault("the cuts add up to " sum ", not " total)
    for (pair in price) {
        split(pair, ends, SUBSEP)
        if (!remains(ends[1], ends[2])) continue
        charged = 0
        for (k = 1; k <= cuts; k++) {
            if (!enters(k, ends[1], ends[2])) continue
            charged += value[k]
            if (!tree) fault(ends[1] " to " ends[2] " enters the set")
        }
        if (charged > price[pair]) fault(ends[1] " to " ends[2] " is overcharged")
    }
}

# what was told of one tree, or of no tree
function judge_part() {
    if (!part) return
    if (tree) judge_tree()
    else if (cuts != 1 || feeds) fault("no tree is one cut")
    judge_cuts()
}

# with the link or without it; a total, or no tree
function start_part(is_with, has_tree, number) {
    judge_part()
    part = 1
    parts++
    with = is_with
    tree = has_tree
    total = plain(number)
    cuts = feeds = 0
    split("", from)
}

# the bound: the larger of the budget and the cheapest total
function is_within() {
    return total <= plain(budget) || total <= plain(least)
}

# the numbers behind a total that is not within it
function judge_bound(rest,    all) {
    all = outcome == "over" ? ", the cheapest of all costs " least : ""
    if (rest != all ", the budget is " budget) fault("it says" rest)
    if (is_within()) fault(total " is within the bound")
}

# 1712 as 1,712
function grouped(number) {
    while (number ~ /[0-9][0-9][0-9][0-9]/) {
        match(number, /^[0-9]+/)
        number = substr(number, 1, RLENGTH - 3) "," substr(number, RLENGTH - 2)
    }
    return number
}

function judge_link() {
    if (link == "") return
    judge_part()
    part = 0
    if (said != state[feeder, fed]) fault("it is said to be " said ", not " state[feeder, fed])
    if (parts != wanted) fault("it has " parts " parts, not " wanted)
    links++
}

BEGIN {
    count = split(marks, word, " ")
    for (k = 1; k < count; k += 3) {
        if (word[k] == "banned") banned[word[k + 1], word[k + 2]]
        else {
            pinned[word[k + 1], word[k + 2]]
            if (word[k + 2] in pin) unfed[word[k + 2]]
            pin[word[k + 2]] = word[k + 1]
        }
    }
    split("refused closed open sure", names, " ")
}
file == 1 && /^positions/ { n = $2; root = $4; budget = grouped($6) }
file == 1 && /^(plan|over)/ { outcome = $1; least = grouped($2) }
file == 1 && /^row/ { for (k = 1; k <= n; k++) state[$2, k - 1] = names[substr($3, k, 1) + 1] }
file == 2 { price[$1, $2] = $3 }
file < 3 { next }
/^link/ { judge_link(); link = $0; feeder = $2; fed = $3; said = ""; parts = 0; next }
said == "" { said = $1; sub(":", "", said) }
/^refused 10$/ { wanted = 0; next }
/^closed: banned on the card/ {
    wanted = 0
    if (!((feeder, fed) in banned)) fault("it is not banned")
    next
}
/^closed: [0-9]+→[0-9]+ is pinned on the card/ {
    wanted = 0
    split($2, ends, "→")
    if (ends[1] == feeder || ends[2] != fed || !((ends[1], fed) in pinned)) fault($2 " does not keep it out")
    for (k = 0; k < ends[1]; k++) if (k != feeder && (k, fed) in pinned) fault(k "→" fed " is smaller")
    next
}
/^closed: no tree has/ { wanted = 1; start_part(1, 0, 0); next }
/^closed: the cheapest tree with/ || /^sure: without it the cheapest/ {
    wanted = 2
    match($0, /costs [0-9,]*[0-9]/)
    start_part(said == "closed", 1, substr($0, RSTART + 6, RLENGTH - 6))
    judge_bound(substr($0, RSTART + RLENGTH))
    next
}
/^sure: without it there is no tree$/ { wanted = 2; start_part(0, 0, 0); next }
/^open: this tree uses it: total / || /^with it: total / || /^without it: total / {
    wanted = 2
    start_part($1 != "without", 1, $NF)
    if (!is_within()) fault(total " is not within the bound")
    next
}
/^feed [0-9]+ from [0-9]+ price [0-9]+$/ { feeds++; from[$2] = $4; paid[$2] = $6; next }
/^cut/ {
    cuts++
    inside[cuts] = " "
    for (k = 2; k < NF && $k != "pence"; k++) inside[cuts] = inside[cuts] $k " "
    value[cuts] = $(k + 1)
    next
}
{ fault("what is this: " $0) }
END { judge_link(); print links + 0 " links" }
