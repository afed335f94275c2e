# Prints 400,000 distinct words of 2 to 15 letters in no order, one a line: the same at each run.
# The numbers come from a linear congruence: x -> 16807 x mod 2147483647.
function next_below(n) {
    x = (16807 * x) % 2147483647
    return int(x / 127) % n
}
BEGIN {
    x = 20261122
    while (made < 400000) {
        size = 2 + next_below(14)
        word = ""
        for (i = 0; i < size; i++) word = word substr("ABCDEFGHIJKLMNOPQRSTUVWXYZ", 1 + next_below(26), 1)
        if (word in seen) continue
        seen[word] = 1
        made++
        print word
    }
}
