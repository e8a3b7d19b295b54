# From `objdump -d --no-show-raw-insn PROGRAM`: for each function a line `stack NAME BYTES FRAME`, the stack that a
# call of it needs at most, and how much of that is its own frame (return address, saved registers and locals); and a
# line `copy BYTES`, the length that most calls of memcpy and memmove for more than 512 bytes have: a node's. Not counted
# are functions of shared libraries, and in Rust what only panics or runs out of memory.
/^[0-9a-f]+ <.*>:$/ {
    f = $2
    gsub(/^<|>:$/, "", f)
    frame[f] = 8
    length_ = 0
    next
}
$2 == "push" { frame[f] += 8 }
$2 == "sub" && $3 ~ /^\$0x[0-9a-f]+,%rsp$/ { frame[f] += number($3) }
$2 == "and" && $3 ~ /^\$0xf+[0-9a-f]+,%rsp$/ { frame[f] += 32 }
$2 == "mov" && $3 ~ /^\$0x[0-9a-f]+,%edx$/ { length_ = number($3) }
$2 == "call" && $4 ~ /^<mem(cpy|move)@plt>$/ && length_ > 512 { copies[length_]++ }
($2 == "call" || $2 ~ /^j/) && $4 ~ /^<[^+@]+>$/ {
    g = substr($4, 2, length($4) - 2)
    if (g != f && g !~ /panic|unwrap_failed|_fail|handle_error|alloc_error|_Unwind/) {
        calls[f] = calls[f] " " g
    }
}

function number(operand,    digits, n, i) {
    digits = operand
    sub(/^\$0x/, "", digits)
    sub(/,.*/, "", digits)
    n = 0
    for (i = 1; i <= length(digits); i++) {
        n = n * 16 + index("0123456789abcdef", substr(digits, i, 1)) - 1
    }
    return n
}

function depth(f,    n, i, each, d, most) {
    if (f in known) {
        return known[f]
    }
    known[f] = 0
    most = 0
    n = split(calls[f], each, " ")
    for (i = 1; i <= n; i++) {
        d = depth(each[i])
        if (d > most) {
            most = d
        }
    }
    known[f] = frame[f] + most
    return known[f]
}

END {
    for (f in frame) {
        print "stack", f, depth(f), frame[f]
    }
    for (n in copies) {
        if (copies[n] > copies[best]) {
            best = n
        }
    }
    print "copy", best
}
