# Draws the staircase of a document of `front`:  awk -f examples/staircase.awk DOCUMENT
#
# The width goes to the right, the height upwards. A cell with a point of the front has o; . is what
# is as wide and as high as some point, # what isn't, and ? what isn't known, right of the last point
# of a part of a front. A row has 48 letters (-v letters=24), and there are as many rows as keep the
# shape, at most 16 (-v rows=9).
$1 == "container" { width = $2; height = $3 }
$1 == "result" { whole = $2 == "front" }
$1 == "point" { n++; a[n] = $2; b[n] = $3 }
END {
    if (!width) { print "the document has no container"; exit 1 }
    if (!letters) letters = 48
    if (!rows) {
        rows = int(height / width * letters / 2 + 0.5)
        if (rows > 16) rows = 16
        if (rows < 1) rows = 1
    }
    for (k = 1; k <= n; k++) mark[cell(a[k], width, letters), cell(b[k], height, rows)] = 1
    for (j = rows; j >= 1; j--) {
        line = ""
        for (i = 1; i <= letters; i++) line = line sign(i, j)
        print line
    }
}
# the cell of a number: the first whose end is at least the number
function cell(x, whole_side, cells,    c) {
    c = int(x * cells / whole_side)
    return c * whole_side < x * cells ? c + 1 : c
}
function sign(i, j,    k) {
    if ((i, j) in mark) return "o"
    for (k = 1; k <= n; k++) if (i >= cell(a[k], width, letters) && j >= cell(b[k], height, rows)) return "."
    if (!whole && (n == 0 || i > cell(a[n], width, letters))) return "?"
    return "#"
}
