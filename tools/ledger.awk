# The two steps of tools/ledger. Reads the names that the docs have in backquotes (docs.names), the items (items), and in step 2 the sums of step 1.
#
# Roots are the calls and the theorems: a theorem is a statement marked `pub` that the docs name, or that stands in a file of `claims`. A root
# says its statement. It reaches the items that its words name, those that their words name, and so on, each with its body.
# Step 1 writes the own text of each root and of each item reached to a file. Step 2 writes for each root a list: its own sum and that of each item
# reached, each with numbers for what its words name, so that it says which definition each word stands for, and not in which file that is.

function load(    id) {
    id = $2 "\003" $3
    ids[++n] = id
    Root[id] = $1 == "call" ? "call" : $1 == "pub-stated" && claimed($2, $3) ? "theorem" : ""
    Said[id] = $5
    Whole[id] = $6 == "" ? $5 : $5 " " $6
}

function claimed(place, name,    k, list, i) {
    if (name in docs) return 1
    k = split(claims, list, " ")
    for (i = 1; i <= k; i++) if (index(place "/", list[i] "/") == 1) return 1
    return 0
}

# a key is r and a root, or d and an item reached: its own text, a word to a line, and what its words name, in order
function read_words(key, text,    k, words, j, p, to) {
    if (key in Refs) return
    k = split(text, words, " ")
    Refs[key] = 0
    Text[key] = ""
    for (j = 1; j <= k; j++) {
        p = index(words[j], "\002")
        to = p == 0 ? "" : substr(words[j], p + 1)
        if (index(to, "\003")) { Ref[key, ++Refs[key]] = "d" to; words[j] = substr(words[j], 1, p - 1) }
        Text[key] = Text[key] words[j] "\n"
    }
}

# numbers everything behind a key, as it is met
function reach(key,    j, to) {
    for (j = 1; j <= Refs[key]; j++) {
        to = Ref[key, j]
        if (to in number) continue
        read_words(to, Whole[substr(to, 2)])
        number[to] = ++count
        order[count] = to
        reach(to)
    }
}

function spelled(key) { sub(/\003/, " ", key); return substr(key, 2) }

# the number of a key's file, the same in both steps; step 1 writes it
function own(key, kind,    f) {
    if (key in File) return
    File[key] = ++files
    if (step == 2) return
    f = dir "/own/" files
    printf "%s", Text[key] > f
    close(f)
    print files, kind, spelled(key) > (dir "/names")
}

function write_list(root,    f, i, j, key, line) {
    f = dir "/whole/" File[root]
    order[0] = root
    for (i = 0; i <= count; i++) {
        key = order[i]
        line = Sum[File[key]]
        for (j = 1; j <= Refs[key]; j++) line = line " " number[Ref[key, j]]
        print line > f
        if (i > 0) print spelled(root) "\t" spelled(key) > (dir "/reach")
    }
    close(f)
}

FILENAME ~ /docs\.names$/ { docs[$0] = 1; next }
FILENAME ~ /items$/ { load(); next }
{ Sum[$2] = $1 }

END {
    for (i = 1; i <= n; i++) {
        if (Root[ids[i]] == "") continue
        root = "r" ids[i]
        read_words(root, Said[ids[i]])
        own(root, Root[ids[i]])
        count = 0
        split("", number); split("", order)
        reach(root)
        for (j = 1; j <= count; j++) own(order[j], "definition")
        if (step == 2) write_list(root)
    }
}
