# Writes each case into four files of the folder `work`: NAME.in, NAME.status, NAME.out and NAME.err.

part == "" && $1 == "case" {
    name = work "/" $2
    unended = $NF == "unended"
    lines = 0
    printf "" > (name ".in")
    printf "" > (name ".out")
    printf "" > (name ".err")
    part = "input"
    next
}

part == "input" && $1 == "expect" {
    if (lines > 0 && !unended) printf "\n" > (name ".in")
    print $2 > (name ".status")
    part = "answer"
    next
}

part == "input" {
    if (lines > 0) printf "\n" > (name ".in")
    printf "%s", $0 > (name ".in")
    lines++
    next
}

part == "answer" && $0 == "" {
    close(name ".in")
    close(name ".out")
    close(name ".err")
    close(name ".status")
    part = ""
    next
}

part == "answer" && /^! / { print substr($0, 3) > (name ".err"); next }

part == "answer" { print > (name ".out") }
