# A line of antt without its comment. (`{- .. -}` is not used in this repository; tools/items.awk refuses it.)
function uncomment(s,    from, i, before) {
    from = 1
    while (match(substr(s, from), /--/)) {
        i = from + RSTART - 1
        before = substr(s, 1, i - 1)
        if ((before == "" || before ~ /[ (){},;]$/) && gsub(/"/, "\"", before) % 2 == 0) return substr(s, 1, i - 1)
        from = i + 2
    }
    return s
}

# The words of a text of antt, to W[1], ..; answers how many.
function words_of(s) {
    gsub(/[(){},;@]/, " & ", s)
    return split(s, W, " ")
}
