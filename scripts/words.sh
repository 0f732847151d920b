# Sourced by `plan`, `prices` and `why`: the refusals of a card, of the count of positions, the root, the budget and a
# link in words.
words() {
    case $1 in
    1) echo "a card has at least 5 bytes" ;;
    2) echo "the number of positions is not 1 to 32" ;;
    3) echo "the card is too short or too long for its positions and records" ;;
    4) echo "the root is not below the number of positions" ;;
    5) echo "the budget is above 32,505,794" ;;
    7) echo "a mark is 3, or stands on no link" ;;
    8) echo "a filling bit is 1" ;;
    9) echo "a position is not on the card" ;;
    10) echo "there is no such link on the card" ;;
    27) echo "a record has kind 3, a non-link, no member or a value out of range, or there are more than 200" ;;
    *) echo "refusal $1" ;;
    esac
}
