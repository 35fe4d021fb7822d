# What the server answered about each code, and the range of sources.rt that it lies in, in the lines of rows.awk; what fits no row is told
# as it came. First file: sources.rt; second: what the program of cases wrote on the script of tests/sources/run, which has a heading for
# each code and below it reports of 0, 5 and 3 (the descriptor comes before the 5, and the read after the 3), then of 255, 256, 65535,
# 65536 and 4294967295.
BEGIN {
    here["00 done done done 00 00 00 08"] = "counting"
    here["00 done done done 00 00 00 05"] = "peak"
    here["17 H8 H8 H8 00 00 00 00"] = "not supported"
    here["00 H8 H8 H8 00 00 00 00"] = "no event"
    largest[" done done done done done"] = "FFFFFFFFh"
    largest[" done done done done done, cut"] = "FFFFFFFFh" # it adds to an error count, which what came before had begun
    largest[" done done done H9 H9"] = "FFFFh"
    largest[" done H9 H9 H9 H9"] = "FFh"
    largest[" H8 H8 H8 H8 H8"] = "-"
}
function told(    found, decided, i) {
    if (code == "") return
    found = result small " " value
    if (found in here) found = here[found]
    decided = "none"
    for (i = 1; i <= ranges; i++)
        if (low[i] <= number(code) && number(code) <= high[i])
            decided = sprintf("%02Xh to %02Xh%s", low[i], high[i], kind[i] == found ? "" : ", of " kind[i])
    if (large ~ /, cut$/) found = found ", error count"
    print code "|" found "|" decided "|" (large in largest ? largest[large] : large)
}
FNR == 1 { file++ }
file == 1 && /^pub fn / { of = substr($3, 1, index($3, "(") - 1) }
file == 1 {
    for (rest = $0; match(rest, /0x[0-9A-F][0-9A-F]\.\.=0x[0-9A-F][0-9A-F]/); rest = substr(rest, RSTART + RLENGTH)) {
        kind[++ranges] = of
        low[ranges] = number(substr(rest, RSTART + 2, 2))
        high[ranges] = number(substr(rest, RSTART + 9, 2))
    }
}
file == 2 && /^[0-9A-F][0-9A-F]h$/ { told(); code = $0; result = small = value = large = ""; reports = 0 }
file == 2 { answer = substr($0, index($0, " -> ") + 4) }
file == 2 && /^  event on phy 0/ { if (++reports <= 3) small = small " " answer; else large = large " " answer }
file == 2 && /^  from 8: 40 93/ { result = substr(answer, 1 + 3 * 2, 2) }   # byte 2
file == 2 && /^  from 8: 40 14/ { value = substr(answer, 1 + 3 * 20, 11) }  # bytes 20 to 23: the value of monitor 0
END { told() }
