# A session as the files that a program is given and compared with: to.in without its first line, to.out,
# and to.head with the modes, one a line, and the status. README.md says what a session is.

# A word of the program has eight digits; a session may leave out its leading zeros.
function full(word) {
    if (word !~ /^0x[0-9a-f]+$/) return word
    while (length(word) < 10) word = "0x0" substr(word, 3)
    return word
}

# z(N) stands for N digits 0, and a line with one is written without its spaces.
function zeros(line,    digits, count) {
    if (!match(line, /z\([0-9]+\)/)) return line
    do {
        digits = ""
        for (count = substr(line, RSTART + 2, RLENGTH - 3) + 0; count > 0; count--) digits = digits "0"
        line = substr(line, 1, RSTART - 1) digits substr(line, RSTART + RLENGTH)
    } while (match(line, /z\([0-9]+\)/))
    gsub(/ /, "", line)
    return line
}

function output(line,    count, word, words, text) {
    count = split(zeros(line), words, / /)
    for (word = 1; word <= count; word++) text = text (word > 1 ? " " : "") full(words[word])
    print text >(to ".out")
}

BEGIN { status = 0; printf "" >(to ".in"); printf "" >(to ".out") }

!body && /^#/ { next }
!body && /^modes: / { modes = substr($0, 8); gsub(/, /, "\n", modes); next }
!body && /^status: / { status = $2; next }
!body && /^board: / {
    while ((getline line <(boards "/" $2)) > 0) print line >(to ".in")
    next
}
!body && /^$/ { body = 1; next }
!body { wrong = wrong " line " NR; next }
/^=> / { output(substr($0, 4)); next }
{
    arrow = index($0, " => ")
    input = arrow ? substr($0, 1, arrow - 1) : $0
    if (arrow) sub(/ +$/, "", input)
    print zeros(input) >(to ".in")
    if (arrow) output(substr($0, arrow + 4))
}

END {
    if (modes == "" || wrong != "") print "wrong" >(to ".head")
    else print status "\n" modes >(to ".head")
}
