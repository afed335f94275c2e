# Prints the rotated paths of each word: the letters of a front in reverse, and where some are left, + and the rest.
{
    front = ""
    for (split_at = 1; split_at <= length($1); split_at++) {
        front = substr($1, split_at, 1) front
        rest = substr($1, split_at + 1)
        print (rest == "") ? front : front "+" rest
    }
}
