# Functions of .rt sources, read one after the other; see tools/places for what is asked of them by `point`: 2, 4 or 5.

# the text of a function as a twin would have it: each name by when it first comes, each number and type of one width alike; its words are counted in `tokens`
function plain(text,   out, seen, met, word) {
    gsub(/\/\/[^\n]*/, "", text)
    out = ""
    tokens = 0
    seen = 0
    split("", met)
    while (match(text, /[A-Za-z_][A-Za-z_0-9]*|[0-9][0-9_a-fx]*|[^ \n]/)) {
        word = substr(text, RSTART, RLENGTH)
        text = substr(text, RSTART + RLENGTH)
        tokens++
        if (word ~ /^[0-9]/ || word ~ /^(u8|u16|u32|u64|usize)$/) word = "N"
        else if (word ~ /^[A-Za-z_]/ && word !~ /^(fn|pub|while|for|in|if|else|match|return|let|mut|as|requires|ensures|true|false|self)$/) {
            if (!(word in met)) met[word] = ++seen
            word = "#" met[word]
        }
        out = out " " word
    }
    return out
}

function ends_function(   facts, n, i, fact, body) {
    if (point == 2) {
        body = plain(text)
        if (tokens >= 30) {
            group[body] = group[body] "\n" where
            size[body]++
        }
    }
    if (point == 4 && own >= 2) print where
    if (point == 5) {
        n = split(text, facts, "\n")
        for (i = 1; i <= n; i++) if (facts[i] ~ /^ *requires /) {
            fact = facts[i]
            sub(/^ *requires *[a-z_0-9]* *\{/, "{", fact)
            stands[fact] = stands[fact] "\n" where " " fact
            times[fact]++
        }
        if (text ~ /table: &/ && text ~ /from: usize/ && text ~ /[^a-z]n: usize/) print where " table, from, n"
    }
}

/^ *(pub )?(extern "C" )?(const )?fn [a-z]/ {
    match($0, /^ */)
    indent = RLENGTH
    name = $0
    sub(/.*fn /, "", name)
    sub(/[^a-z_A-Z0-9].*/, "", name)
    where = FILENAME ":" FNR ": " name
    text = ""
    own = 0
    inside = 1
}

inside {
    text = text "\n" $0
    # a field that is another value's field of the same name
    if (match($0, /^ *[a-z_]+: [a-z_]+\.[a-z_]+,$/)) {
        split($0, half, ": ")
        gsub(/ /, "", half[1])
        tail = half[2]
        sub(/.*\./, "", tail)
        sub(/,$/, "", tail)
        if (half[1] == tail) own++
    }
    close_line = sprintf("%" indent "s}", "")
    if (indent == 0) close_line = "}"
    if ($0 == close_line || (/\}$/ && / fn .*\{ .* \}$/)) {
        inside = 0
        ends_function()
    }
}

END {
    if (point == 2) for (body in group) if (size[body] > 1) print substr(group[body], 2)
    if (point == 5) for (fact in stands) if (times[fact] > 2) print substr(stands[fact], 2)
}
