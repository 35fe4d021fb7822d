# The number of a code: of 2Bh 43.
function digit(c) { return index("0123456789ABCDEF", c) - 1 }
function number(code) { return 16 * digit(substr(code, 1, 1)) + digit(substr(code, 2, 1)) }
