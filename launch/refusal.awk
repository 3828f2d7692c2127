# A refusal of the run program in words. `report` is the line that it printed: ffff, the line's number and the refusal's.
# If the run file can be read again, its line 1 and the refused line come in here, each as the word `line` and then its
# bytes as decimal numbers, at most `most` of them. If they do not show what was wrong, or nothing came in,
# the words are those of the refusal itself.

$1 == "line" { part++; next }
{ for (i = 1; i <= NF; i++) byte[part, ++size[part]] = $i + 0 }

END {
    number = value(substr(report, 5, 8))
    refusal = value(substr(report, 13, 2))
    for (i = 1; i <= part; i++) take_line_feed(i)
    why = part ? seen() : ""
    print "line " number " refused (" refusal "): " (why == "" ? meant() : why)
}

function take_line_feed(part) {
    ended[part] = size[part] > 0 && byte[part, size[part]] == 10
    if (ended[part]) size[part]--
}

# What a refusal means, whatever the line was.
function meant() {
    if (refusal == 1) return "n has to be from 1 to 16"
    if (refusal == 2) return "f has to be from 0 to 5, and 3f below n"
    if (refusal == 3) return "c has to be from 2 to 65535"
    if (refusal == 7) return "the broken set may name at most f cards, each below n"
    if (refusal == 10)
        return (number < 3 ? "it is missing, or it has" : "it has") " a wrong length or a character that is none of 0-9, a-f"
    return number > 65536 ? after_the_last() : "beat " wanted_beat() " is wanted"
}

function after_the_last() { return "it comes after beat fffe, which is the last" }
function wanted_beat() { return sprintf("%04x", number - 2) }

# What was wrong with the line, or nothing if it does not show: the file may have changed since.
function seen() {
    if (refusal == 10) return wrong_text()
    if (!is_header()) return ""
    if (refusal == 11) return wrong_beat()
    if (refusal == 7) return wrong_set(field(1, 2), field(3, 2), field(9, 4))
    return wrong_number(field(1, 2), field(3, 2), field(5, 4))
}

# Numbers 1, 2 and 3, which are all about line 1.
function wrong_number(n, f, c) {
    if (refusal == 1 && (n < 1 || n > 16)) return "n is " n ", and has to be from 1 to 16"
    if (refusal == 2 && f > 5) return "f is " f ", and has to be from 0 to 5"
    if (refusal == 2 && 3 * f >= n) return "f is " f ", and 3f has to be below n, which is " n
    if (refusal == 3 && c < 2) return "c is " c ", and has to be from 2 to 65535"
    return ""
}

function wrong_set(n, f, set,    named, card, cards) {
    named = "the broken set " digits(1, 9) " names "
    for (card = 0; card < 16; card++) {
        if (!is_broken(set, card)) continue
        if (card >= n) return named "card " card ", and cards are numbered from 0 to " (n - 1)
        cards++
    }
    return cards > f ? named cards (cards == 1 ? " card" : " cards") ", and f is " f : ""
}

function wrong_beat() {
    if (number > 65536) return after_the_last()
    if (size[2] < 4 || digits(2, 1) == wanted_beat()) return ""
    return "it has beat " digits(2, 1) " where " wanted_beat() " is wanted"
}

function wrong_text(    wanted, place, returns, found) {
    wanted = wanted_size()
    if (!wanted) return ""
    if (!size[2]) return ended[2] ? "it is empty where " characters(wanted) " are wanted" : missing()
    returns = byte[2, size[2]] == 13
    place = first_wrong()
    if (size[2] == wanted) return place ? character(place) (returns ? ask_of_returns() : "") : ""
    found = "it has " (size[2] > most ? "more than " most " characters" : characters(size[2])) " where " wanted " are wanted"
    if (place && !(returns && place == size[2])) found = found ", and " character(place)
    if (returns) return found ask_of_returns()
    return found (ended[2] || size[2] > most ? "" : ", and the file ends there")
}

function missing() { return "it is missing, and a run file has at least two lines" }
function ask_of_returns() { return "; does the file end its lines with CR LF?" }
function characters(count) { return count (count == 1 ? " character" : " characters") }

function character(place,    code) {
    code = byte[2, place]
    if (code >= 65 && code <= 70) return sprintf("character %d is '%c', and digits are lower case", place, code)
    if (code >= 32 && code <= 126) return sprintf("character %d is '%c', which is none of 0-9, a-f", place, code)
    return sprintf("character %d is the byte 0x%02x, which is none of 0-9, a-f", place, code)
}

# The place of the first character of the line that is not a digit, or 0.
function first_wrong(    place) {
    for (place = 1; place <= size[2]; place++) if (!is_digit(byte[2, place])) return place
    return 0
}

# How many characters the line has to have, or 0 if line 1 does not show it.
function wanted_size(    table, card, sent) {
    if (number == 1) return 12
    if (!is_header()) return 0
    table = field(1, 2) * (8 * binary_digits(field(3, 2)) + 1)
    for (card = 0; card < 16; card++) sent += is_broken(field(9, 4), card)
    return 4 * (1 + (number == 2 ? table : sent * table))
}

function is_broken(set, card) { return int(set / 2 ^ card) % 2 }

function binary_digits(f,    count) {
    for (count = 0; f > 0; count++) f = int(f / 2)
    return count
}

# Is line 1 twelve digits?
function is_header(    place) {
    for (place = 1; place <= 12; place++) if (!is_digit(byte[1, place])) return 0
    return size[1] == 12
}

function is_digit(code) { return code >= 48 && code <= 57 || code >= 97 && code <= 102 }

# A number of line 1.
function field(from, count) { return value(substr(digits(1, 1) digits(1, 5) digits(1, 9), from, count)) }

# Four characters of a line.
function digits(part, from,    place, text) {
    for (place = from; place < from + 4; place++) text = text sprintf("%c", byte[part, place])
    return text
}

function value(text,    place, sum) {
    for (place = 1; place <= length(text); place++) sum = 16 * sum + index("0123456789abcdef", substr(text, place, 1)) - 1
    return sum
}
