# Prints a line for each exported function of the Rattle files named: file, function, the kinds of its clauses, and its text from
# the name up to the body; tabs between. What it can't read has the kind `unreadable`, so that the gate refuses it.

# The text of a function from its name at `at` on: fills `kinds` and gives what stands before the body.
function header(at,    from, c, depth, clause, head) {
    kinds = ""
    from = at # where what belongs to no clause yet starts
    for (depth = 0; at <= length(text); at++) {
        c = substr(text, at, 1)
        if (depth && c == "\"") { # a text in a clause
            while (++at <= length(text) && substr(text, at, 1) != "\"") { }
        } else if (depth && substr(text, at, 3) ~ /^[ \n]--$/) { # a comment in a clause
            while (at < length(text) && substr(text, at + 1, 1) != "\n") at++
        } else if (c == "{" && depth++ == 0) {
            head = substr(text, from, at - from)
            if (match(head, /[ \n](ensures|requires|ghost)([ \n]+[A-Za-z_0-9]+)?[ \n]*$/)) {
                clause = substr(head, RSTART + 1)
                sub(/[ \n].*/, "", clause)
                kinds = kinds (kinds ? " " : "") clause
            } else {
                if (kinds && head ~ /[^ \n]/) break # a clause of a kind that is not known here
                if (!kinds) kinds = "none"
                return substr(text, start, at - start)
            }
        } else if (c == "}" && --depth == 0) {
            from = at + 1
        }
    }
    kinds = "unreadable"
    return substr(text, start)
}

function scan(    rest, name, said) {
    # a commented-out clause must not be taken for one
    if (text ~ /extern/ && index(text, "/*")) print file "\t?\tunreadable\ta comment between /* and */"
    else for (end = 1; match(substr(text, end), /(^|[^A-Za-z_0-9])extern[^A-Za-z_0-9]/); ) {
        end += RSTART + RLENGTH - 1
        rest = substr(text, end - 1)
        if (match(rest, /^[ \n]*"C"[ \n]+fn[ \n]+/)) {
            start = end - 1 + RLENGTH
            name = substr(text, start)
            sub(/[^A-Za-z_0-9].*/, "", name)
            said = header(start)
        } else {
            name = "?"
            kinds = "unreadable"
            said = substr(rest, 1, 40)
        }
        gsub(/[ \t\n]+/, " ", said)
        print file "\t" name "\t" kinds "\t" said
    }
    text = ""
}

FNR == 1 { if (file) scan(); file = FILENAME }
{ sub(/\/\/.*/, ""); gsub(/[\t\r]/, " "); text = text $0 "\n" }
END { if (file) scan() }
