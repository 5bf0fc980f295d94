# The rules of tools/rules that stand in promises and definitions: 1 and 3. Reads what tools/items prints.

# a word, and something that it names
function means(word, to) {
    if ((word, to) in seen) return
    seen[word, to] = 1
    meant[word] = (meanings[word] ? meant[word] " and " : "") to
    meanings[word]++
}

# the words of a text that name something; those before a `:` of a signature are parameters
function look(text, contract,    k, w, j, p, word, to) {
    k = split(text, w, " ")
    for (j = 1; j <= k; j++) {
        if (w[j] == "requires" || w[j] == "ensures") contract = 1
        if (!contract && w[j + 1] == ":") parameter[w[j]] = $2 " " $3
        p = index(w[j], "\002")
        if (p == 0) continue
        word = substr(w[j], 1, p - 1)
        to = substr(w[j], p + 1)
        if (!sub(/\003/, " ", to)) library[word] = to
        means(word, to)
    }
}

BEGIN {
    FS = "\t"
    k = split(ENVIRON["except"], line, "\n")
    for (i = 1; i <= k; i++) { split(line[i], w, " "); exempt[w[1]] = 1 }
}

$1 == "call" {
    calls++
    look($5, 0)
    if ((" " $5 " ") ~ / requires\*? /) print $2 " " $3 ": a public call with a requires"
}
$2 ~ /\/specs\// {
    word = $3; gsub(/^_|_$/, "", word)
    means(word, $2 " " $3)
    if ($1 == "def") look($5 " " $6, 1)
}

END {
    for (word in library) {
        words++
        if (word in parameter) print parameter[word] ": a parameter by the name of " library[word]
        if (meanings[word] > 1 && !(word in exempt)) print word ": is " meant[word]
        if (meanings[word] == 1 && word in exempt) print "tools/rules: an exception that is none: " word
    }
    print calls " public calls, " words " library words" > counts
}
