# Writes a run file in which all words are noise, the same for the same seed:
#   awk -v n=7 -v f=2 -v c=16 -v broken=1,5 -v beats=460 -v seed=1 -f examples/noise.awk >FILE
# The broken cards are named by their numbers with commas between them; without `broken` no card is.

BEGIN {
    cards = split(broken, card, ",")
    for (i = 1; i <= cards; i++) set += 2 ^ card[i]
    record = 1
    for (rest = f; rest > 0; rest = int(rest / 2)) record += 8
    printf "%02x%02x%04x%04x\n", n, f, c, set
    line(0, n * record)
    for (beat = 1; beat <= beats; beat++) line(beat, n * cards * record)
}

function line(beat, words) {
    printf "%04x", beat
    for (; words > 0; words--) printf "%04x", word()
    printf "\n"
}

function word() {
    seed = (75 * seed + 74) % 65537
    return seed % 65536
}
