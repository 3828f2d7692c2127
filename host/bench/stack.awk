# Reads what `objdump -dr` prints of x86-64 code and prints the bytes of stack that the function `start` needs: along the
# deepest chain of calls, 8 for each register saved, what `sub` takes from %rsp, and 8 for each return address. Functions
# that call themselves, or one another, do so at most `turns` deep. Functions from outside count with their return address.

function number(hex,    value, i) {
    for (i = 1; i <= length(hex); i++) value = value * 16 + index("0123456789abcdef", substr(hex, i, 1)) - 1
    return value
}

function calls(name) {
    called[inside, ++count[inside]] = name
}

function deepest(name,    i, below, most) {
    if (depth[name] == turns) return 0
    depth[name]++
    for (i = 1; i <= count[name]; i++) {
        below = deepest(called[name, i])
        if (below > most) most = below
    }
    depth[name]--
    return 8 + frame[name] + most
}

/^[0-9a-f]+ <.*>:$/ { inside = substr($2, 2, length($2) - 3); known[inside] = 1 }
$2 == "push" { frame[inside] += 8 }
$2 == "sub" && $3 ~ /^\$0x[0-9a-f]+,%rsp$/ && length($3) < 16 { frame[inside] += number(substr($3, 4, length($3) - 8)); next }
$2 == "add" && $3 ~ /^\$0x[0-9a-f]+,%rsp$/ && length($3) < 16 { next }
/,%rsp$/ { unread = $0 }
$2 == "call" && $3 ~ /^\*/ { unread = $0 }
$2 ~ /^(call|jmp)$/ && $4 ~ /^<[^+]*>$/ && ($2 == "call" || $4 != "<" inside ">") { calls(substr($4, 2, length($4) - 2)) }
$2 == "R_X86_64_PLT32" { name = $3; sub(/^\.text\./, "", name); sub(/-0x4$/, "", name); calls(name) }

END {
    if (unread != "" || !known[start]) {
        print "cannot be read: " (unread != "" ? unread : start " is not there") >"/dev/stderr"
        exit 1
    }
    print deepest(start)
}
