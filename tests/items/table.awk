# The items that the tables of docs/DIFFERENCES.md name, in the form of rust.awk. A cell has groups between semicolons: names; names
# `of` owners; traits `for` types. A heading `### name` begins a section.
function words(text, into,    n) {
    n = 0
    while (match(text, /`[^`]+`/)) {
        into[++n] = substr(text, RSTART + 1, RLENGTH - 2)
        text = substr(text, RSTART + RLENGTH)
    }
    return n
}
function group(text,    half, word, n, m, i, j, lefts, rights) {
    word = text ~ /` of `/ ? " of " : text ~ /` for `/ ? " for " : ""
    if (word == "") {
        n = words(text, lefts)
        for (i = 1; i <= n; i++) print section "\t" lefts[i]
        return
    }
    split(text, half, word)
    n = words(half[1], lefts)
    m = words(half[2], rights)
    for (i = 1; i <= n; i++)
        for (j = 1; j <= m; j++)
            print section "\t" (word == " of " ? rights[j] "::" lefts[i] : lefts[i] " for " rights[j])
}
/^##/ { section = "" }
/^### `/ { section = $2; gsub(/`/, "", section) }
section != "" && /^\| `/ {
    split($0, cells, /\|/)
    n = split(cells[2], groups, /;/)
    for (i = 1; i <= n; i++) group(groups[i])
}
