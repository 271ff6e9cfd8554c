# Decoded lines of candesk as CSV, a row for each signal that is shown:
#
#     candesk decode FILE < LOG | awk -f signals.awk
#
# A value keeps its exact text; a named value, or ?long and its kin, stands as it is shown. (A named value that has a comma and a
# blank in it is cut there: such a text can't be told from two signals.)

function quoted(text) {
    gsub(/"/, "\"\"", text)
    return "\"" text "\""
}

BEGIN { print "time,interface,message,signal,value,unit" }

{
    at = index($0, " :: ")
    said = at ? substr($0, at + 4) : ""
    if (said !~ /^[A-Za-z_][A-Za-z_0-9]*(\[[^]]*\])?\(.+\)$/) next
    message = said
    sub(/[[(].*/, "", message)
    open = index(said, "(")
    count = split(substr(said, open + 1, length(said) - open - 1), signals, ", ")
    for (i = 1; i <= count; i++) {
        colon = index(signals[i], ": ")
        value = substr(signals[i], colon + 2)
        unit = ""
        if (match(value, /^-?[0-9]+(\.[0-9]+)? /)) {
            unit = substr(value, RLENGTH + 1)
            value = substr(value, 1, RLENGTH - 1)
        }
        name = substr(signals[i], 1, colon - 1)
        print substr($1, 2, length($1) - 2) "," quoted($2) "," message "," name "," quoted(value) "," quoted(unit)
    }
}
