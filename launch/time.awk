# How long the proof of the crates `asked` for, and of what they depend on, will take. What is read: the names of the crates
# that need no proof, crates.txt, and the table of docs/ECONOMY.md.

/^[A-Za-z_0-9]+( (staticlib|[a-z_]+=[^ :]+))*:/ { name = $1; sub(/:$/, "", name); sub(/^[^:]*:/, "x"); depends[name] = $0; next }
NF == 1 { kept[$1] }
NF == 15 { seconds[$2] = $14 }

END {
    count = split(asked, crates, " ")
    for (i = 1; i <= count; i++) delete kept[crates[i]]
    for (i = 1; i <= count; i++) is_to_be_proved(crates[i])
    minutes = int((total + 59) / 60)
    print "about " (minutes > 1 ? minutes " minutes" : "1 minute")
}

# A crate is proved again if one that it depends on is.
function is_to_be_proved(crate,    parts, count, i) {
    if (crate in known) return known[crate]
    if (!(crate in depends)) return 0
    known[crate] = !(crate in kept)
    count = split(depends[crate], parts, " ")
    for (i = 2; i <= count; i++) if (is_to_be_proved(parts[i])) known[crate] = 1
    if (known[crate]) total += seconds[crate]
    return known[crate]
}
