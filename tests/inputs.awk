# Writes each case of a file of runs into the folder `work` as an input of `memory_tests`, NAME.in after a prefix,
# whose first line has the options. A case to be run with the provisional cache and without it becomes two. Of all
# inputs it takes `most` at most, evenly spread, or all if that is 0.

function hold(name, options) {
    held[++inputs] = options text
    names[inputs] = name
}

function finish() {
    if (name != "") {
        hold(name, options)
        if (is_both) hold(name ".off", options " provisional off")
    }
    name = ""
}

$1 == "case" && part != "input" {
    finish()
    name = $2
    options = "limit 8"
    if ($3 == "limit") {
        options = "limit " $4
        if ($6 == "off") options = options " provisional off"
    }
    is_both = $6 == "both"
    text = ""
    part = "input"
    next
}

part == "input" && $1 == "expect" { part = "answer"; next }

part == "input" { text = text "\n" $0 }

part == "answer" && $0 == "" { finish(); part = "" }

END {
    finish()
    step = most > 0 && inputs > most ? inputs / most : 1
    for (place = 1; int(place) <= inputs; place += step) {
        file = work "/" prefix names[int(place)] ".in"
        printf "%s\n", held[int(place)] > file
        close(file)
    }
}
