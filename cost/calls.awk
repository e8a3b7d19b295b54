# From a callgrind file: all instructions, and those inside the calls of the function that ends in `name`, the library's too.
/^c?fn=/ {
    id = $1
    sub(/^c?fn=/, "", id)
    if (NF > 1) {
        names[id] = $2
    }
    called = names[id]
}
/^calls=/ {
    counts = called ~ ("(^|::|^kosmydore_(module_)?)" name "$")
    getline
    if (counts) {
        inside += $2
    }
}
/^(totals|summary):/ { all = $2 }
END { print all, inside + 0 }
