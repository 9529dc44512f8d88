# Sheets that are large: awk -v result=21 -f large.awk meets the ceiling, and so for the limits 22 to 25; 3 gives 2,001
# lines, 15 two types that nest deep.

function line(kind, value, count) {
    printf "%3d%20d%5d\n", kind, value, count
}

function lines(times, kind, value, count) {
    while (times-- > 0)
        line(kind, value, count)
}

# So many type applications to Int over a type.
function spine(levels, kind, value) {
    lines(levels, 15, 0, 0)
    line(kind, value, 0)
    lines(levels, 12, 1, 0)
}

# A context variable: a function from any type to Int.
function from_any(name) {
    line(2, name, 0)
    line(14, 10, 0)
    line(13, 0, 0)
    line(11, 10, 0)
    line(12, 1, 0)
}

function expected_int() {
    line(3, 0, 0)
    line(12, 1, 0)
    line(4, 0, 0)
}

# A sum of so many sevens that is as flat as can be.
function flat_sum(leaves) {
    if (leaves == 1) {
        line(22, 7, 0)
        return
    }
    line(28, 1, 0)
    flat_sum(leaves - int(leaves / 2))
    flat_sum(int(leaves / 2))
}

# Each arm compares two spines, which takes a step for each node.
function ceiling(    at, arm) {
    line(1, 20, 0)
    line(14, 10, 0)
    spine(300, 11, 10)
    line(1, 21, 0)
    line(13, 0, 0)
    spine(300, 12, 1)
    line(12, 30, 0)
    line(1, 29, 0)
    line(12, 30, 0)
    expected_int()
    lines(5, 28, 1, 0)
    for (at = 0; at < 6; at++) {
        line(27, 0, 3)
        line(26, 29, 0)
        for (arm = 0; arm < 3; arm++) {
            line(43, 21, 1)
            line(43, 20, 0)
            line(22, 7, 0)
        }
    }
}

# A nest of pairs where a nest of products of one part is wanted.
function deep() {
    line(2, 40, 0)
    lines(490, 16, 0, 2)
    lines(491, 12, 9999, 0)
    line(3, 0, 0)
    lines(980, 16, 0, 1)
    line(12, 1, 0)
    line(4, 0, 0)
    line(21, 40, 0)
}

# 7 + (7 + (.. + 7)): the left operands wait on the board.
function board(    at) {
    expected_int()
    for (at = 0; at < 200; at++) {
        line(28, 1, 0)
        line(22, 7, 0)
    }
    line(22, 7, 0)
}

# n41 makes 32 copies of its argument, and is applied to what it made of 7.
function written_out() {
    from_any(40)
    line(2, 41, 0)
    line(14, 10, 0)
    line(13, 0, 0)
    line(11, 10, 0)
    line(16, 0, 32)
    lines(32, 11, 10, 0)
    expected_int()
    line(24, 0, 0)
    line(21, 40, 0)
    line(24, 0, 0)
    line(21, 41, 0)
    line(24, 0, 0)
    line(21, 41, 0)
    line(22, 7, 0)
}

# Each argument is a solution of 401 nodes.
function solutions(    at) {
    line(2, 40, 0)
    line(16, 0, 4)
    for (at = 0; at < 4; at++) {
        line(16, 0, 99)
        lines(99, 12, 1, 0)
    }
    from_any(41)
    expected_int()
    lines(10, 28, 1, 0)
    for (at = 0; at < 11; at++) {
        line(24, 0, 0)
        line(21, 41, 0)
        line(21, 40, 0)
    }
}

BEGIN {
    if (result == 3)
        lines(2001, 41, 0, 0)
    if (result == 15)
        deep()
    if (result == 21)
        ceiling()
    if (result == 22)
        board()
    if (result == 23)
        written_out()
    if (result == 24) {
        expected_int()
        flat_sum(600)
    }
    if (result == 25)
        solutions()
}
