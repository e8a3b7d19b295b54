# Read by ./kosmydore and .ci/run: what was made of which sources. $top is the checkout. A file that was made of the sources as they
# stand need not be made again: target/kosmydore/NAME.sums holds the sum of those sources, and that of the file.

# The sum of the kit and of all that is proved and compiled
sources() {
    (
        cd -- "$top" || exit
        rt version
        find crates.txt crates -name out -prune -o -type f ! -path '*/must-fail/*' -exec sha256sum {} + | LC_ALL=C sort
    ) 2> /dev/null | sha256sum
}

# is_made NAME SUM FILE: the file is what was made of the sources of this sum
is_made() {
    [ -e "$3" ] && [ "$(cat -- "$top/target/kosmydore/$1.sums" 2> /dev/null)" = "$2$(sha256sum < "$3")" ]
}

# made NAME SUM FROM FILE: FROM was made of the sources of this sum; it is copied to FILE, and that is noted, unless a source has changed since
made() {
    mkdir -p -- "$top/target/kosmydore" "${4%/*}" || return
    rm -f -- "$top/target/kosmydore/$1.sums"
    cp -- "$3" "$4.$$" && mv -f -- "$4.$$" "$4" || return
    [ "$(sources)" != "$2" ] || printf '%s' "$2$(sha256sum < "$4")" > "$top/target/kosmydore/$1.sums"
}
