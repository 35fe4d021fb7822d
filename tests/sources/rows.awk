# The rows of docs/SOURCES.md's first table, one line for each code: CODE|HERE|DECIDED BY|LARGEST AMOUNT. A row of several codes, as
# '07h to 1Fh', gives a line for each.
BEGIN { FS = " *[|] *" }
/^[|] [0-9A-F][0-9A-F]h / && NF == 7 {
    first = number($2)
    last = $2 ~ / to / ? number(substr($2, length($2) - 2)) : first
    for (code = first; code <= last; code++) printf "%02Xh|%s|%s|%s\n", code, $4, $5, $6
}
