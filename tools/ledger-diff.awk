# What moved from one ledger to another. Reads with what=ledger the lines of side=old and of side=new; and perhaps, to say by what each moved, with
# what=own the digests of the own texts and with what=reach what each call and theorem reaches, in both.

function key() { return $1 " " $2 " " $3 }

what == "ledger" { Sum[side, key()] = $4; Key[side, ++Count[side]] = key(); Kind[key()] = $1; Name[key()] = $3; next }
what == "own" { Own[side, key()] = $4; known = 1; next }
what == "reach" {
    split($0, pair, "\t")
    if ((pair[1], pair[2]) in met) next
    met[pair[1], pair[2]] = 1
    Reaches[pair[1]] = Reaches[pair[1]] "\t" pair[2]
    Reached[pair[2]] = Reached[pair[2]] "\t" pair[1]
    next
}

function placed(k) { sub(/^[a-z]+ /, "", k); return k }

# what became of each: changed, new, gone, or in another file with the same digest
function judge(    i, k, same) {
    for (i = 1; i <= Count["old"]; i++) {
        k = Key["old", i]
        if (("new", k) in Sum) continue
        Mark[k] = "gone"
        same = Kind[k] " " Name[k] " " Sum["old", k]
        Lost[same, ++lost[same]] = k
    }
    for (i = 1; i <= Count["new"]; i++) {
        k = Key["new", i]
        same = Kind[k] " " Name[k] " " Sum["new", k]
        if (("old", k) in Sum) Mark[k] = Sum["old", k] == Sum["new", k] ? "" : "changed"
        else if (lost[same] == 0) Mark[k] = "new"
        else { From[k] = Lost[same, lost[same]--]; Mark[k] = "elsewhere"; Mark[From[k]] = "" }
    }
    for (k in Mark) if (Mark[k] ~ /changed|new|gone/) Moved[placed(k)] = 1
}

function joined(a, b) { return a == "" || b == "" ? a b : a ", " b }

# of what a call or theorem reaches, what moved
function moved_of(list,    k, parts, i, out) {
    k = split(list, parts, "\t")
    out = ""
    for (i = 1; i <= k; i++) if (parts[i] in Moved) out = joined(out, parts[i])
    return out
}

# the calls that reach a definition, and how many theorems
function touched(list,    k, parts, i, calls, theorems) {
    k = split(list, parts, "\t")
    calls = ""
    for (i = 2; i <= k; i++) if (("call " parts[i]) in Kind) calls = joined(calls, parts[i]); else theorems++
    return joined(calls, theorems ? theorems (theorems == 1 ? " theorem" : " theorems") : "")
}

function tell(k,    why) {
    told++
    print Mark[k] "\t" k (Mark[k] == "elsewhere" ? ", before in " placed(From[k]) : "")
    if (!known || Mark[k] == "elsewhere") return
    if (Kind[k] == "definition") print "\t\treached by " touched(Reached[placed(k)])
    else if (Mark[k] == "changed") {
        why = joined(Own["old", k] == Own["new", k] ? "" : "its own words", moved_of(Reaches[placed(k)]))
        print "\t\tby " (why == "" ? "words that stand for other definitions now" : why)
    }
}

END {
    judge()
    split("definition call theorem", kind, " ")
    for (j = 1; j <= 3; j++) {
        for (i = 1; i <= Count["new"]; i++) {
            k = Key["new", i]
            if (Kind[k] != kind[j]) continue
            if (Mark[k] == "" || Mark[k] == "elsewhere") stayed[j]++
            if (Mark[k] != "") tell(k)
        }
        for (i = 1; i <= Count["old"]; i++) if (Kind[Key["old", i]] == kind[j] && Mark[Key["old", i]] == "gone") tell(Key["old", i])
    }
    printf "stayed\t%d definitions, %d calls, %d theorems%s\n", stayed[1], stayed[2], stayed[3], told ? "" : ": all"
}
