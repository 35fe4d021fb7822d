# What does not agree between a page's two tables and the names that smp-utils have, a line for each. First file: what the server answered
# (answers.awk); second: the page; third: tests/client/expected, with the tool's list. The tool's name is that of the table of differences
# where the code stands there, and otherwise that of the first table, capital letters aside.
BEGIN { FS = " *[|] *" }
FNR == 1 { file++ }
file == 1 { here[$1] = $2 }
file == 2 && NF == 7 && $2 ~ /^[0-9A-F][0-9A-F]h$/ { paper[$2] = $3 }
file == 2 && NF == 6 && $2 ~ /^[0-9A-F][0-9A-F]h$/ {
    if (here[$2] != $3) print $2 " is " here[$2] ", and stands among the differences as " $3
    if (($2 in paper ? paper[$2] : "reserved") != $4) print $2 " has another name in the first table than among the differences"
    other[$2] = $5
}
file == 3 && match($0, /^1[|]     \[0x..\] /) {
    code = toupper(substr($0, 11, 2)) "h"
    name = substr($0, RLENGTH + 1)
    listed++
    if (tolower(code in other ? other[code] : paper[code]) != tolower(name)) print code " is " name " to the tool"
    if (code in other && tolower(paper[code]) == tolower(name)) print code " stands among the differences, and is none"
    delete other[code]
}
END {
    for (code in other) print code " stands among the differences, and the tool does not list it"
    if (listed != 37) print "the tool lists 37 codes, and " listed + 0 " are in the transcript"
}
