# Writes wishes of every shape into a folder, and beside each what `plan` has to print for it, by a reading of the papers of its own:
# awk -v out=DIR -v seed=N -v many=N -f tests/wishes.awk
# Wish i is DIR/i.wish, its words DIR/i.words, and the script or the refusal DIR/i.plan. A number in 21 columns, spaces before its
# digits, is compared as text, since it is 64 bits wide: a space comes before every digit.

function column(n) { return sprintf("%21s", n) }

function range(start, end, rights) { return column(start) column(end) column(rights) "\n" }

# ---- the reading

function is_number(text) {
    return length(text) == 21 && text ~ /^ *(0|[1-9][0-9]*)$/ && text <= column("18446744073709551615")
}

# What a text comes to for a compartment and its allowance.
function reading(text, k, m,    lines, n, i, line, start, end, rights, last, once, script, good, share) {
    if (k > 7) return sprintf("%3d%21d\n", 1, 0)
    if (m > 1024) return sprintf("%3d%21d\n", 18, 0)
    n = split(text, lines, "\n")
    if (n > 0 && lines[n] == "") n--
    good = n <= m
    script = ""
    last = ""
    once = 0
    for (i = 1; i <= n; i++) {
        line = lines[i]
        start = substr(line, 1, 21)
        end = substr(line, 22, 21)
        rights = substr(line, 43)
        if (length(line) != 63 || !is_number(start) || !is_number(end) || !is_number(rights)) return sprintf("%3d%21d\n", 17, i)
        if (!(start < end) || !(rights < column(64)) || (i > 1 && start < substr(last, 1, 21))) good = 0
        script = script "A" sprintf("%2d", k) line "\n"
        if (once && last == start rights) {
            script = script "A" sprintf("%2d", k) line "\n"
            once = 0
        } else once = 1
        last = end rights
    }
    if (!good) return sprintf("%3d%21d\n", 25, 0)
    if (m == 128) return script
    share = ""
    if (m > 128)
        for (i = 0; i < 8; i++) if (i != k) share = share sprintf("S%2d%21d\n", i, int((1024 - m) / 7))
    return share sprintf("S%2d%21d\n", k, m) script
}

# ---- the wishes

function pick(n) { return int(rand() * n) }

function some_rights(    r) {
    r = pick(6)
    return r == 0 ? 0 : r == 1 ? 63 : r == 2 ? 3 : r == 3 ? 1 : pick(64)
}

# So many ranges in order; they touch so often, in ten, and go on with the same rights so often.
function ordered(n, touch, same,    text, at, i, rights, size) {
    text = ""
    at = pick(3)
    rights = some_rights()
    for (i = 0; i < n; i++) {
        if (pick(10) >= touch) at += 1 + pick(5)
        if (pick(10) >= same) rights = some_rights()
        size = 1 + pick(4)
        text = text range(at, at + size, rights)
        at += size
    }
    return text
}

# One line of a text that has n is put in another's place.
function spoiled(text, n, line,    lines, i, at, whole) {
    split(text, lines, "\n")
    at = 1 + pick(n)
    whole = ""
    for (i = 1; i <= n; i++) whole = whole (i == at ? line : lines[i]) "\n"
    return whole
}

function bad_line(    r) {
    r = pick(9)
    if (r == 0) return ""
    if (r == 1) return column("01") column(9) column(1)
    if (r == 2) return column(0) column(9) column("18446744073709551616")
    if (r == 3) return column(0) column(9) sprintf("%20d", 1)
    if (r == 4) return column(0) column(9) sprintf("%22d", 1)
    if (r == 5) return column(0) column("9 ") column(1)
    if (r == 6) return column(0) column("-9") column(1)
    if (r == 7) return column(0) column(9) column(1) "\r"
    return "A 0" column(0) column(9) column(1)
}

# A range that no list has in its place: empty, the wrong way round, before the last one, or of rights that there are not.
function odd_line(    r) {
    r = pick(4)
    return r == 0 ? column(5) column(5) column(1) : r == 1 ? column(9) column(5) column(1) : r == 2 ? column(0) column(1) column(1) : column(90000) column(90001) column(64)
}

function write(i, text, k, m,    file, words) {
    file = out "/" i
    words = m == 128 ? (k == 0 ? "" : k) : k " " m
    printf "%s", text >(file ".wish")
    printf "%s\n", words >(file ".words")
    printf "%s", reading(text, k, m) >(file ".plan")
    close(file ".wish")
    close(file ".words")
    close(file ".plan")
}

function wish(i,    shape, n, text, k, m) {
    shape = i % 12
    k = pick(4) ? 0 : pick(8)
    m = pick(3) ? 128 : pick(1025)
    n = 1 + pick(30)
    if (shape == 0) text = ordered(n, 10, 10)
    else if (shape == 1) text = ordered(n, 8, 8)
    else if (shape == 2) text = ordered(n, 5, 5)
    else if (shape == 3) text = ordered(n, 2, 2)
    else if (shape == 4) { n = 126 + pick(5); m = 128; text = ordered(n, 7, 7) }
    else if (shape == 5) { m = pick(9); text = ordered(m + pick(2), 9, 8) }
    else if (shape == 6) { m = 1020 + pick(5); text = ordered(m - 1 + pick(3), 9, 9) }
    else if (shape == 7) text = spoiled(ordered(n, 5, 5), n, bad_line())
    else if (shape == 8) text = spoiled(ordered(n + 1, 5, 5), n + 1, odd_line())
    else if (shape == 9) {
        text = range("18446744073709551613", "18446744073709551614", 1) range("18446744073709551614", "18446744073709551615", pick(2))
        if (pick(2)) text = ordered(n, 5, 5) text
    } else if (shape == 10) text = n % 4 ? range(n, 30 + n, some_rights()) : ""
    # longer than 1,024 lines, with or without a line that is not of the form somewhere in it
    else { n = 1020 + pick(2200); text = ordered(n, 9, 9); m = 1024; if (pick(2)) text = spoiled(text, n, bad_line()) }
    if (pick(40) == 0) k = 8 + pick(3)
    if (pick(40) == 0) m = 1025 + pick(9)
    if (pick(3) == 0) sub(/\n$/, "", text)
    write(i, text, k, m)
}

BEGIN {
    srand(seed)
    for (i = 0; i < many; i++) wish(i)
}
