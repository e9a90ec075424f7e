# Prints a line for each statement of the antt files named: file, name, and its text in one line; tabs between. A theorem's text is
# its signature, a definition's all of it; both stand below the headers of the modules around them, whose parameters they have.
# What a file brings in (`use`, `mod`, operators) decides what its statements mean, and is printed under the name `(head)`.
#
# Layout tells where things end: a declaration starts at the indentation of its module and goes on in lines that are indented
# more, or that are its clauses.

function opens(line) { # does a declaration start here?
    return line ~ /^(unfoldable|abbrev|axiom|pub|record|data|module|mutual|use|mod|open|ruleset|infix[lr]?) / \
        || line ~ /^mutual$/ || line ~ /^[^ ]+ (\{[^}]*\} )?:( |$)/
}

# Ends the declaration that is being read.
function close_item(    i) {
    if (!reading) return
    reading = 0
    if (signature ~ /^(unfoldable |pub )*(use|mod|open|ruleset|infix[lr]?) /) { head = head " ; " signature " " clauses; return }
    i = signature
    marked = i ~ /^((unfoldable|abbrev|axiom|pub) )*(abbrev|unfoldable|axiom|record|data|mutual)( |$)/
    if (!marked && i !~ /^pub /) return # a lemma that only this file's proofs use
    while (sub(/^(unfoldable|abbrev|axiom|pub|record|data) /, "", i)) { }
    sub(/ .*/, "", i)
    n++
    files[n] = file; names[n] = i; whole[n] = marked
    said[n] = around[depth] " " signature
    more[n] = clauses
}

function close_file() {
    close_item()
    if (head) print file "\t(head)\t" head
    head = ""; depth = 0; around[0] = ""; left[0] = 0
}

FNR == 1 { if (file) close_file(); file = FILENAME; depth = 0; around[0] = ""; left[0] = 0 }
/^ *(--.*)?$/ { next }
{
    match($0, /^ */); indent = RLENGTH
    line = substr($0, indent + 1)
    gsub(/[ \t]+/, " ", line)
    if (reading && indent > at) {
        # a module's header ends in `where`; what follows it stands in the module
        if (!(signature ~ /^(pub )?module / && signature ~ / where$/)) {
            if (in_clauses) clauses = clauses " " line; else signature = signature " " line
            next
        }
        reading = 0
        around[depth + 1] = around[depth] " " signature
        left[++depth] = indent
    }
    while (depth && indent < left[depth]) { close_item(); depth-- }
    if (opens(line)) {
        close_item()
        reading = 1; in_clauses = 0; at = indent; signature = line; clauses = ""
    } else {
        in_clauses = 1
        clauses = clauses " " line
    }
}

# Where the text of another statement mentions a name, that name is a definition, and counts whole.
function mentions(a, b,    text) {
    text = " " said[a] (whole[a] ? more[a] : "") " "
    gsub(/[(){};,]/, " ", text)
    return index(text, " " names[b] " ")
}
END {
    if (file) close_file()
    do {
        again = 0
        for (i = 1; i <= n; i++) for (j = 1; j <= n; j++)
            if (i != j && !whole[j] && mentions(i, j)) { whole[j] = 1; again = 1 }
    } while (again)
    for (i = 1; i <= n; i++) print files[i] "\t" names[i] "\t" said[i] (whole[i] ? more[i] : "")
}
