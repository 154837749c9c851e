# Makes the bytes of a machine sheet, as octal escapes for printf, of a maker's table: a line `state letter output next` for each state and
# letter, in any order; empty lines and lines that begin with # are left out. A table that is not whole gets a line on standard error.
function stop(line) { print "sheet: " line >"/dev/stderr"; failed = 1; exit 1 }
function byte(x) { return sprintf("\\0%03o", x) }
/^[ \t]*(#|$)/ { next }
{
    if (NF != 4) stop("line " NR " has " NF " numbers, not the four of `state letter output next`")
    for (i = 1; i <= 4; i++) if ($i !~ /^[0-9]+$/ || $i > 255) stop("line " NR ": '" $i "' is not a number from 0 to 255")
    s = $1 + 0; a = $2 + 0
    if ((s, a) in pair) stop("line " NR ": state " s " and letter " a " are given twice")
    pair[s, a] = byte($3 + 0) byte($4 + 0)
    if (s >= states) states = s + 1
    if (a >= letters) letters = a + 1
}
END {
    if (failed) exit 1
    if (!states) stop("the table has no line")
    sheet = "MH" byte(states) byte(letters)
    for (s = 0; s < states; s++) {
        sheet = sheet "MR"
        for (a = 0; a < letters; a++) {
            if (!((s, a) in pair)) stop("state " s " has no line for letter " a)
            sheet = sheet pair[s, a]
        }
    }
    print sheet
}
