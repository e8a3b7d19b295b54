# From the disassembly of a program for Thumb-2: of each function the bytes of stack that it takes with all that it calls, and of its own frame, as lines
# `NAME WHOLE OWN`. A jump to another function counts as a call. No function calls itself or through an address; a line `NAME ?` is said otherwise.
function registers(text) { return gsub(/[rs][0-9]+|lr|sl|fp|ip|sb|pc/, "", text) }
function hexadecimal(text, digits, i, n) {
    for (i = 3; i <= length(text); i++) n = n * 16 + index("0123456789abcdef", substr(text, i, 1)) - 1
    return n
}
function number(text) {
    sub(/^.*#/, "", text)
    sub(/[^0-9a-fx].*$/, "", text)
    return text ~ /^0x/ ? hexadecimal(text) : text + 0
}
function most(f, g, i, n, best, list, deep) {
    if (f in within || f in through) { broken[f] = 1; return 0 }
    within[f] = 1
    best = 0
    n = split(calls[f], list, " ")
    for (i = 1; i <= n; i++) { deep = most(list[i]); if (list[i] in broken) broken[f] = 1; if (deep > best) best = deep }
    delete within[f]
    return own[f] + best
}
/^[0-9a-f]+ <.*>:$/ { f = $2; gsub(/[<>:]/, "", f); own[f] = 0; next }
f == "" { next }
{ $1 = ""; sub(/^ +/, ""); sub(/ +[@;].*$/, "") }
/^(push|stmdb(\.w)?[ \t]+sp!)/ { sub(/^[^{]*/, ""); own[f] += 4 * registers($0); next }
/^vpush/ { own[f] += ($0 ~ /d[0-9]/ ? 8 : 4) * (gsub(/[ds][0-9]+/, "")); next }
/^sub(\.w|w)?[ \t]+sp,/ { own[f] += number($0); next }
/^str(\.w)?[ \t]+[a-z0-9]+, \[sp, #-/ { own[f] += number(substr($0, index($0, "#-") + 1) ~ /^-/ ? "#" substr($0, index($0, "#-") + 2) : $0); next }
/^blx[ \t]+[a-z]/ { through[f] = 1; next }
/^b[a-z.]*[ \t].*<[^+>]*>$/ { g = $NF; gsub(/[<>]/, "", g); if (g != f && (" " calls[f] " ") !~ (" " g " ")) calls[f] = calls[f] " " g }
END { for (f in own) { whole = most(f); print f, (f in broken ? "?" : whole), own[f] } }
