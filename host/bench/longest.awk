# Reads what `objdump -dr` prints of x86-64 code and prints how many instructions the function `start` takes at most: along
# the longest way from its first one to a return, where a loop goes around once for each of `cards` cards, and is entered at
# its head alone. Functions that call themselves do so at most `turns` deep, each time with half of the cards, rounded up. A
# call of a function from outside counts as one instruction. A way that ends in a trap is not taken.

function link(from, to) {
    following[from, ++ways[from]] = to
}

# Finds the edges that go back to the head of a loop, and puts the instructions in order: those that follow come before, and
# an inner loop's head before an outer one's.
function search(name,    top, at, to) {
    stack[top = 1] = first[name]
    open[first[name]] = 1
    while (top > 0) {
        at = stack[top]
        if (tried[at] < ways[at]) {
            to = following[at, ++tried[at]]
            if (!(to in open)) {
                open[to] = 1
                stack[++top] = to
            } else if (open[to]) back[at, to] = is_head[to] = 1
        } else {
            open[at] = 0
            ordered[name, ++size[name]] = at
            top--
        }
    }
}

# The longest way from `from` to a return or, where `from` is the head of a loop, back to it; -1 if there is none.
function longest(name, from, is_loop, cards,    k, i, at, to, way, most, inner) {
    for (k = 1; k <= size[name]; k++) {
        at = ordered[name, k]
        most = !is_loop && returns[at] ? 0 : -1
        for (i = 1; i <= ways[at]; i++) {
            to = following[at, i]
            way = !((at, to) in back) ? longest_from[to, depth[name]] : is_loop && to == from ? 0 : -1
            if (way > most) most = way
        }
        inner = at in callee && most >= 0 ? instructions(callee[at], cards) : 0
        longest_from[at, depth[name]] = most < 0 || inner < 0 ? -1 : 1 + around[at, depth[name]] + inner + most
    }
    return longest_from[from, depth[name]]
}

# Those of a function; -1 where it may not be called once more.
function instructions(name, cards,    k, at, most) {
    if (!(name in first)) return 0
    if (name != start && depth[name] == turns) return -1
    if (depth[name]++) cards = int((cards + 1) / 2)
    if (!(name in size)) search(name)
    for (k = 1; k <= size[name]; k++) around[ordered[name, k], depth[name]] = 0
    for (k = 1; k <= size[name]; k++) {
        at = ordered[name, k]
        if (at in is_head) around[at, depth[name]] = (cards - 1) * longest(name, at, 1, cards)
    }
    most = longest(name, first[name], 0, cards)
    depth[name]--
    return most
}

/^[0-9a-f]+ <.*>:$/ { inside = substr($2, 2, length($2) - 3); before = "" }
$1 ~ /^[0-9a-f]+:$/ && $2 !~ /^R_/ {
    at = inside ":" substr($1, 1, length($1) - 1)
    if (!(inside in first)) first[inside] = at
    if (before != "") link(before, at)
    before = $2 ~ /^(jmp|ret|ud2)$/ ? "" : at
    returns[at] = $2 == "ret"
    if ($2 ~ /^j/) link(at, inside ":" $3)
    if ($2 == "call") callee[at] = substr($4, 2, length($4) - 2)
    if ($2 ~ /^(loop|rep|j|call)/ && $3 !~ /^[0-9a-f]+$/) unread = $0
}
$2 == "R_X86_64_PLT32" { callee[at] = $3; sub(/^\.text\./, "", callee[at]); sub(/-0x4$/, "", callee[at]) }

END {
    if (unread != "" || !(start in first)) {
        print "cannot be read: " (unread != "" ? unread : start " is not there") >"/dev/stderr"
        exit 1
    }
    print instructions(start, cards)
}
