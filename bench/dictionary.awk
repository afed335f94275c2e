# Prints 400,000 distinct words of 2 to 15 letters in no order, one a line: the same at each run. They are built as the
# words of a language are, stems of one to four syllables with endings, so that many have a front or a back in common.
# The numbers come from a linear congruence: x -> 16807 x mod 2147483647.
function next_below(n) {
    x = (16807 * x) % 2147483647
    return int(x / 127) % n
}
function syllable() {
    return onset[1 + next_below(onsets)] vowel[1 + next_below(vowels)] coda[next_below(16)]
}
BEGIN {
    x = 20261122
    onsets = split("B C D F G H L M N P R S T V W ST TR BR PL CH SH TH", onset, " ")
    vowels = split("A E I O U A E I O EA OU", vowel, " ")
    codas = split("N R S T L ND ST CK", coda, " ") # half of the syllables end with their vowel
    endings = split("S ED ING ER ERS LY NESS ABLE", ending, " ")
    while (made < 400000) {
        stem = ""
        for (i = 1 + next_below(4); i > 0; i--) stem = stem syllable()
        for (e = 0; e <= endings; e++) {
            word = stem ending[e]
            if (length(word) < 2 || length(word) > 15 || (word in seen)) continue
            seen[word] = 1
            if (made++ < 400000) print word
        }
    }
}
