# Holds the names in the documents against the tree, as tools/trace says. Reads, each behind its what=..: items (what tools/items prints), handed (crate
# TAB crate TAB name, or file TAB TAB name), files (a list), groups (`checks` TAB a group of it), numbers (the documents whose paragraphs are numbered), then the documents.

# ── what is there ──

function known(place, name, kind) { has[place, name] = 1; kinds[name] = kinds[name] " " kind }

# an item's words; and as definitions its fields, constructors and variants: the words before a `:` behind `where` or in a struct, and an enum's own
function members(place, name, text,    k, w, j, on) {
    k = split(text, w, " ")
    on = w[1] == "struct"
    for (j = 1; j <= k; j++) {
        sub(/\002.*/, "", w[j])
        has[name, w[j]] = 1
    }
    for (j = 2; j < k; j++) {
        if (w[j] == "where") on = 1
        if ((on && w[j + 1] == ":") || (w[1] == "enum" && w[j - 1] ~ /^[{,]$/)) known(place, w[j], "def")
    }
}

# the ways to write a function: by its crate, its module, its type, or alone
function function_(place, name,    c, m, alone_) {
    c = place; sub(/\/.*/, "", c)
    m = place; sub(/^.*\/src\//, "", m)
    alone_ = name; sub(/^.*::/, "", alone_)
    called[name] = called[c "::" name] = called[c "::" m "::" name] = called[m "::" name] = called[alone_] = 1
    known(place, alone_, "fn")
}

what == "items" {
    if ($1 == "call" || $1 == "fn") { function_($2, $3); next }
    known($2, $3, $1)
    if ($1 == "def" || $1 == "type") members($2, $3, $5 " " $6)
    next
}
# a call that a crate hands on goes by that crate too, and a definition by the file that does
what == "handed" {
    if ($2 == "") has[$1, $3] = 1
    else if (($2 "::" $3) in called) called[$1 "::" $3] = 1
    next
}
# a file goes by its name without crates/ and its ending; its folders too, those of tools/ also without that, and an edit and a file alone
what == "files" {
    file[$1] = 1
    s = $1
    sub(/^crates\//, "", s); sub(/\.(antt|rt|edit)$/, "", s)
    file[s] = 1
    b = s; sub(/^.*\//, "", b)
    known("", b, "file")
    s = $1
    while (sub(/\/[^\/]*$/, "", s)) {
        b = s; sub(/^crates\//, "", b); file[b] = 1; sub(/^tools\//, "", b); file[b] = 1
        b = s; sub(/^.*\//, "", b); folder[b "/"] = 1
    }
    next
}
what == "groups" { group[$1] = group[$1] "\t" $2 " "; next }
what == "numbers" {
    s = FILENAME; sub(/^.*\//, "", s); sub(/\.md$/, "", s)
    if (match($0, /^[0-9]+\. /)) there[s " " substr($0, 1, RLENGTH - 2)] = 1
    next
}

# ── one name ──

function bad(name, why) { printf "%s:%d: `%s`: %s\n", FILENAME, FNR, name, why; wrong = 1 }

# names that are none of ours: more than one word, no letter, a projection, of the Rust, of the language
function foreign(s) {
    return s ~ / / || s !~ /[A-Za-z]/ || s ~ /^\./ || s ~ /\.rs$/ || s ~ /^(Err|std::)/ || s ~ /NAME/ || index(" " ENVIRON["others"] " ", " " s " ")
}

# the whole name of a file: as it stands, of a crate that the line begins with, or beside the file named last; "" where it is none
function file_of(s,    k, c, i, d) {
    if (s in file) return s
    k = split(crates, c, " ")
    for (i = 1; i <= k; i++) {
        if ((c[i] "/" s) in file) return c[i] "/" s
        if ((c[i] "/specs/" s) in file) return c[i] "/specs/" s
        if ((c[i] "/proofs/" s) in file) return c[i] "/proofs/" s
    }
    d = beside; sub(/\/[^\/]*$/, "", d)
    return (d "/" s) in file ? d "/" s : ""
}

# `c::f`, or `c::{f, g}`; bare names behind it are of c too
function is_path(s,    list, names, k, i) {
    prefix = s; sub(/::[^:]*$/, "", prefix)
    if (s !~ /\{/) return s in called
    list = s; sub(/^.*\{/, "", list); sub(/\}.*/, "", list)
    k = split(list, names, ", ")
    for (i = 1; i <= k; i++) if (!((prefix "::" names[i]) in called)) return 0
    return 1
}

# a name that stands alone
function alone(s) {
    if (foreign(s)) return
    checked++
    if (s ~ /\/$/) { if (!(s in folder)) bad(s, "no such folder") }
    else if (s ~ /::/) { if (!is_path(s)) bad(s, "no such call") }
    else if (file_of(s) != "") beside = file_of(s)
    else if (s ~ /\//) bad(s, "no such file")
    else if (!(s in kinds)) bad(s, "not in the tree")
    else if (column == "promise" && prefix != "" && s in called) { if (!((prefix "::" s) in called)) bad(s, "no call of " prefix) }
    else if (column == "definition" && kinds[s] !~ /def|type/) bad(s, "no definition")
    else if (column == "theorem" && kinds[s] !~ /stated/) bad(s, "no theorem")
}

# a name that is said to be in a file, a crate or an item
function placed(s, at,    f) {
    if (foreign(s)) return
    checked++
    f = file_of(at)
    if (f == "" && at ~ /\//) return
    if (!((f == "" ? at : f, s) in has) && !((f "/proofs/" s) in file) && !((f "/specs/" s) in file)) bad(s, "not in " at)
}

# ── the names of a text ──

function flush(    i) { for (i = 1; i <= pending; i++) alone(name_of[i]); pending = 0 }

# Lists of names. `in` or `of` a place, or places, behind a list: all must be in each; in brackets right behind a name: what it has.
function read_text(text,    k, parts, i, sep, s, j, owner, listed) {
    k = split(text, parts, "`")
    pending = 0; owner = ""; listed = 0; beside = ""; prefix = ""
    for (i = 2; i <= k; i += 2) {
        sep = parts[i - 1]; s = parts[i]
        if (owner != "" && sep ~ /\)/) { owner = ""; sub(/^[^)]*\)/, "", sep) }
        if (sep == " (" && pending > 0 && file_of(name_of[pending]) == "") owner = name_of[pending]
        if (owner != "") { placed(s, owner); continue }
        if (sep ~ /^s?( and (kin|its lines))? (in|of) $/ && pending > 0) listed = pending
        else if (!(listed && s ~ /\// && sep ~ /^(, | and )$/)) {
            if (listed) pending = 0
            listed = 0
            if (sep ~ /[;:.(]|, and /) flush()
            name_of[++pending] = s
            continue
        }
        for (j = 1; j <= listed; j++) placed(name_of[j], s)
        if (s ~ /\//) alone(s); else { name_of[1] = s; pending = 1; listed = 0 }
    }
    if (!listed) flush()
}

# `checks: DATA read, SACK (P4); replies`: programs and tools; and sections of checks, or the first words of some
function tests(cell,    k, parts, i, p, g, m, names, j) {
    gsub(/\([^)]*\)/, "", cell)
    k = split(cell, parts, ";")
    for (i = 1; i <= k; i++) {
        p = parts[i]; gsub(/^ +| +$/, "", p)
        g = p; sub(/:.*/, "", p)
        if (p == "" || p ~ / /) continue
        checked++
        if (!(p in file)) bad(p, "no such program")
        if (g !~ /:/) continue
        sub(/^[^:]*: */, "", g); gsub(/ +,/, ",", g); sub(/ +$/, "", g)
        m = split(g, names, ", *")
        for (j = 1; j <= m; j++) { checked++; if (!index(group[p], "\t" names[j] " ")) bad(names[j], "no group of " p) }
    }
}

# DECISIONS 3, DIFFERENCES 1
function numbers(text,    s) {
    while (match(text, /(DECISIONS|DIFFERENCES) [0-9]+/)) {
        s = substr(text, RSTART, RLENGTH)
        text = substr(text, RSTART + RLENGTH)
        checked++
        if (!(s in there)) bad(s, "no such number")
    }
}

{ numbers($0); column = "" }
FILENAME ~ /TRACE/ && /^\|/ {
    split($0, cell, "|")
    crates = ""
    column = "definition"; read_text(cell[3])
    column = "promise"; read_text(cell[4])
    column = "theorem"; read_text(cell[5])
    column = "test"; read_text(cell[6])
    if (cell[6] !~ /`|^ *(test|-+) *$/) tests(cell[6])
    next
}
/^- `/ { crates = $0; sub(/:.*/, "", crates); gsub(/[-`,]/, " ", crates) }
!/^(- `| )/ { crates = "" }
{ read_text($0) }

END {
    if (wrong) exit 1
    print "trace: " checked " names of TRACE, GUARANTEE and PROOFS, each in the tree"
}
