# The rules of tools/rules that stand in a file's text: 2 and 4. Reads every source (.rt) and every spec and proof (.antt).

function short(    p) { p = FILENAME; sub(/^crates\//, "", p); sub(/\.[a-z]*$/, "", p); return p }

function broken(what) { printf "%s:%d: %s\n", FILENAME, FNR, what }

# an axiom, a hole, excluded middle or choice among the words of a line
function look(line,    k, j) {
    k = words_of(line)
    for (j = 1; j <= k; j++) {
        if (W[j] == "axiom") broken("an axiom")
        if (W[j] ~ /^\?/ || (W[j] == "{" && W[j + 1] ~ /^!/)) broken("a hole")
        if (W[j] ~ /(^|\.)(lem|ac|LEM|AC)$/ || W[j] ~ /Prim\.Axiom/) broken("rests on lem or ac: " W[j])
    }
}

BEGIN {
    k = split(ENVIRON["except"], line, "\n")
    for (i = 1; i <= k; i++) { split(line[i], w, " "); exempt[w[1]] = 1 }
}

FNR == 1 { until = ""; files++ }
FNR == 401 { broken("a file of over 400 lines") }

FILENAME ~ /\.antt$/ { look(uncomment($0)); next }

/^ *(pub )?(unsafe )?extern "C" *\{/ { broken("an extern \"C\" block") }
/^ *(requires|ensures|ghost)[* ]/ { look($0); claused = 1 }

until == "" && /^ *(pub(\([a-z_: ]*\))? )?(const |unsafe |final )*(extern "C" )?fn / {
    name = $0; sub(/^.*fn /, "", name); sub(/[^A-Za-z_0-9].*$/, "", name)
    match($0, /^ */)
    until = sprintf("%" RLENGTH "s", "") "}"
    from = 0
    claused = 0
    functions++
    if ($0 ~ /\{.*\}$|;$/) until = ""
}
# the body begins where a line ends in its brace, or behind clauses where it stands alone; a method that a trait leaves open has none
until != "" && from == 0 && (claused ? $0 == substr(until, 1, length(until) - 1) "{" : /\{$/) { from = FNR }
until != "" && from == 0 && (claused ? /\};$/ : /;$/) { until = "" }
until != "" && $0 == until {
    size = FNR - from - 1
    if (size > 40 && (short() ":" name) in exempt) used[short() ":" name] = 1
    else if (size > 40) broken("a function of " size " lines: " name)
    until = ""
}

END {
    for (e in exempt) if (e != "" && !(e in used)) print "tools/rules: an exception that is none: " e
    print functions " functions, " files " files" > counts
}
