# Draws the places of a document in two or three dimensions:  awk -f examples/draw.awk DOCUMENT
#
# Box 1 is A, box 2 is B, and so on: capital letters, small letters, digits, and from box 63 on from A
# again. The first dimension goes to the right, the second upwards. A row has 48 letters
# (-v letters=24), and there are as many rows as keep the shape, at most 16 (-v rows=9). Of three
# dimensions there is a plan for each height at which a box begins, of bins one for each bin, and of a
# front one for each point.
{ sub(/\r$/, ""); sub(/#.*/, "") }
$1 == "answer" || $1 == "reduced" { job = $2 }
$1 == "front" { job = "front" }
$1 == "container" { d = NF - 1; for (i = 1; i <= d; i++) C[i] = $(i + 1) }
$1 == "box" {
    k = 1
    if ($(NF - 1) == "times") k = $NF
    for (; k > 0; k--) { n++; for (i = 1; i <= d; i++) b[n, i] = $(i + 1) }
}
$1 == "result" && job == "strip" { C[d] = $NF }
$1 == "point" { plans++; W[plans] = $2; H[plans] = $3; m = 0 }
$1 == "place" || $1 == "take" {
    named = job == "bins" || job == "knapsack"
    v = $1 == "take" ? $2 : ++m
    c = job == "bins" ? $2 : job == "front" ? plans : 1
    for (i = 1; i <= d; i++) p[c, v, i] = $(i + 1 + named)
    placed[c, v] = 1
    if (c > plans) plans = c
}
END {
    if (d > 3) { print "a drawing has at most three dimensions"; exit 1 }
    if (!plans) { print "the document has no places"; exit 1 }
    if (!letters) letters = 48
    asked = rows
    for (c = 1; c <= plans; c++) {
        if (job == "bins") print "bin " c
        if (job == "front") { print "point " W[c] " " H[c]; C[1] = W[c]; C[2] = H[c] }
        rows = asked ? asked : rows_of(C[1], C[2])
        if (d == 2) plan(c, -1)
        else {
            last = -1
            while ((z = next_height(c, last)) >= 0) { print "at height " z; plan(c, z); last = z }
        }
    }
}
function rows_of(width, height,    r) {
    r = int(height / width * letters / 2 + 0.5)
    return r > 16 ? 16 : r < 1 ? 1 : r
}
function next_height(c, last,    v, z) {
    z = -1
    for (v = 1; v <= n; v++)
        if (placed[c, v] && p[c, v, 3] > last && (z < 0 || p[c, v, 3] < z)) z = p[c, v, 3] + 0
    return z
}
function plan(c, z,    r, k, x, y, line, v, a) {
    for (r = rows - 1; r >= 0; r--) {
        line = ""
        for (k = 0; k < letters; k++) {
            x = (k + 0.5) * C[1] / letters
            y = (r + 0.5) * C[2] / rows
            a = "."
            for (v = 1; v <= n; v++)
                if (placed[c, v] && p[c, v, 1] <= x && x < p[c, v, 1] + b[v, 1] && p[c, v, 2] <= y && y < p[c, v, 2] + b[v, 2] \
                    && (z < 0 || (p[c, v, 3] <= z && z < p[c, v, 3] + b[v, 3])))
                    a = substr("ABCDEFGHIJKLMNOPQRSTUVWXYZabcdefghijklmnopqrstuvwxyz0123456789", (v - 1) % 62 + 1, 1)
            line = line a
        }
        print line
    }
}
