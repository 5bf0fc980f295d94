# Reads sources (crates/NAME/src/*.rt) and specs and proofs (crates/NAME/specs/*.antt, proofs/*.antt), and prints one line for each item:
#
#     kind TAB place TAB name TAB line TAB statement TAB body
#
# kind: call (a function marked `pub` in a file that is shown, of a crate of `public`; and the `from` of an `impl From<AType> for B` there that has a
# `ghost from_gives`, which is its contract: its name is B::from_a_type), fn (any other), type (struct, enum, const, alias), def (abbrev, unfoldable,
# record, data), pub-stated or stated (anything else that has a type), axiom. place: the file without crates/ and its ending.
# The statement of a function is its signature and its contract; that of what stands in a `module _ (..) where` begins with those parameters.
#
# The ghost fields of a struct, and the ghost members of its impls (`ghost view = { .. }`), stand behind its statement; those of a trait behind the trait's.
#
# Marks, comments, layout, `unfolding` lines and the names of clauses are gone: words stand a blank apart, and a `,` or `;` right before a closing
# bracket is left out. A word that names an item of ours is followed by \002 and that item's place, \003 and name; a library's word by \002 and its
# path. A field (`r.answer`), a label (`answer =`) and, in a contract, a parameter name nothing. A word that a variable shadows counts as the name all
# the same: an item may be said to reach too much, never too little.
#
# It reads what `rt fmt` lays out, and ends with status 2 at what it cannot read.

function fail(what) {
    printf "%s:%d: not read: %s\n", FILENAME, FNR, what > "/dev/stderr"
    failed = 1
    exit 2
}

# ── items ──

function begin(kind, name, indent) {
    n++
    Kind[n] = kind; Place[n] = place; Name[n] = name; Line[n] = FNR; Indent[n] = indent
    Said[n] = tele[depth]; Body[n] = ""
    part = "said"
    if ((place, name) in at && kind !~ /fn$/) fail("a second " name)
    at[place, name] = n
    operator(name, n)
}

# the words of an operator, as a and b of `◌a◌b◌`, name it too
function operator(name, item,    parts, k, i) {
    if (name !~ /◌/ || place ~ /\/src\//) return
    k = split(name, parts, /◌/)
    for (i = 1; i <= k; i++) if (parts[i] != "") at[place, parts[i]] = item
}

function add(text) {
    if (part == "said") Said[n] = Said[n] " " text
    else if (part == "body") Body[n] = Body[n] " " text
}

# ── .antt ──

# The place that a path of a crate names, "" for another library's. Of `Rattle.c.specs.declared.m.T`, and of what stands below it (`TheVariants` and
# kin), the place is that of T's source, and T goes to `declared`; of `..declared.m.TheConstants` nothing does.
function place_of(path,    c, k, parts, i, mods, rest) {
    declared = ""
    if (path !~ /^Rattle\.[a-z_0-9]+\.(specs|proofs)\./) return ""
    k = split(path, parts, ".")
    c = parts[2]
    rest = ""
    if (parts[4] != "declared") {
        for (i = 4; i <= k; i++) rest = rest "/" parts[i]
        return c "/" parts[3] rest
    }
    mods = ""
    for (i = 5; i <= k && parts[i] !~ /^[A-Z]/; i++) mods = mods (i > 5 ? "/" : "") parts[i]
    if (parts[i] != "TheConstants") declared = parts[i]
    return c "/src/" (mods == "" ? "lib" : mods)
}

# `use PATH.{a, b as c}`, `use PATH as x`, `use PATH`; `pub use PATH.{a}` hands a on, and in a Lib.antt `pub use PATH` the module
function import(s,    path, list, k, names, i, from, to, w, p, pub) {
    if (s ~ /Rattle·/) fail("a path in an older Rattle's spelling: " s)
    pub = s ~ /^(unfoldable )?pub /
    sub(/^(ghost|unfoldable|pub) +/, "", s); sub(/^pub +/, "", s); sub(/^use +/, "", s); sub(/;? *$/, "", s)
    if (s ~ /\.\*$/) fail("use of all names")
    if (s ~ /\.\{/) {
        path = s; sub(/\.\{.*/, "", path)
        list = s; sub(/^.*\.\{/, "", list); sub(/\}.*/, "", list)
        p = place_of(path)
        k = split(list, names, ",")
        for (i = 1; i <= k; i++) {
            w = split(names[i], from, " ")
            if (w == 0) continue
            to = w == 3 ? from[3] : from[1]
            brought[place, to] = p == "" ? path "." from[1] : p SUBSEP (declared == "" ? from[1] : declared)
            if (pub && p != "") handed[place, to] = brought[place, to]
            if (to ~ /◌/) { w = split(to, from, /◌/); for (; w > 0; w--) if (from[w] != "") brought[place, from[w]] = brought[place, to] }
        }
        return
    }
    w = split(s, from, " ")
    path = from[1]
    to = w == 3 ? from[3] : path
    if (w != 3) sub(/^.*\./, "", to)
    p = place_of(path)
    alias[place, to] = p == "" ? path : p SUBSEP declared
    if (pub && p != "" && place ~ /\/Lib$/) { w = place; sub(/Lib$/, to, w); passed[w] = p }
}

function antt(line,    s, indent, word) {
    s = uncomment(line)
    if (s ~ /\{-/) fail("a comment in {- -}")
    sub(/[ \t]+$/, "", s)
    if (s ~ /^ *$/) return
    match(s, /^ */); indent = RLENGTH
    s = substr(s, indent + 1)
    if (open != "") {
        open = open " " s
        if (open ~ /^module / ? s ~ /(^| )where$/ : s ~ /\}$/) {
            s = open; open = ""
            if (s ~ /^module /) enter(s); else import(s)
        }
        return
    }
    while (depth > 0 && indent < block[depth]) depth--
    if (indent > block[depth] || s ~ /^[])}]/) {
        if (indent == block[depth] + 2 && inside == "data" && s ~ /^[^ ]+ :/) { word = s; sub(/ .*/, "", word); at[place, word] = n }
        add(s)
        return
    }
    inside = ""
    if (s ~ /^((unfoldable )?pub )?use /) { if (s ~ /\{/ && s !~ /\}$/) open = s; else import(s); return }
    if (s ~ /^(pub )?mod /) return
    if (s ~ /^module /) { if (s ~ / where$/) enter(s); else open = s; return }
    if (s ~ /^infix[lr]? /) { split(s, fix, " "); fixity[place, fix[3]] = fix[1] " " fix[2] " "; return }
    if (s ~ /^open .* use \{.*\}$/) return
    if (s ~ /^((unfoldable|abbrev) )?mutual$|^(open|ruleset|syntax) /) fail(s)
    if (s ~ /^unfolding /) { part = "unfolding"; return }
    declare(s, indent)
}

# a signature, a record, a data type, or a clause of what stands above
function declare(s, indent,    marks, name) {
    marks = ""
    while (match(s, /^(unfoldable|abbrev|pub|axiom) /)) { marks = marks substr(s, 1, RLENGTH); s = substr(s, RLENGTH + 1) }
    if (s ~ /^(record|data) /) {
        inside = s ~ /^data / ? "data" : "record"
        name = s; sub(/^(record|data) +/, "", name); sub(/ .*/, "", name)
        begin("def", name, indent)
        add(s)
        return
    }
    name = s; sub(/ .*/, "", name)
    if (s ~ /^[^ ]+ (\{[^}]*\} )?:( |$)/) {
        begin(marks ~ /axiom/ ? "axiom" : marks ~ /abbrev|unfoldable/ ? "def" : marks ~ /pub/ ? "pub-stated" : "stated", name, indent)
        add(s)
        return
    }
    if (marks == "" && n > 0 && Place[n] == place && (name == Name[n] || (Name[n] ~ /◌/ && s ~ / = /))) { part = "body"; add(s); return }
    fail(s)
}

function enter(s) {
    sub(/^module _ */, "", s); sub(/ *where$/, "", s)
    tele[depth + 1] = tele[depth] " " s
    block[depth + 1] = block[depth] + 2
    depth++
}

# ── .rt ──

function rt(line,    s, indent) {
    s = line
    if (s ~ /^ *\/\//) return
    if (until != "") { if (s == until || s == until ";") until = ""; return }
    if (s !~ /"/) sub(/ *\/\/.*$/, "", s)
    if (s ~ /^ *$/) return
    match(s, /^ */); indent = RLENGTH
    s = substr(s, indent + 1)
    if (gathering == "fn") { header(s, indent); return }
    if (gathering == "use") { gathered = gathered " " s; if (s ~ /;$/) { gathering = ""; use_line(gathered) }; return }
    if (gathering == "impl") { impl_head = impl_head " " s; if (s ~ /\{( *\})?$/) impl_line(indent); return }
    if (gathering == "attribute") { if (s ~ /\]$/) gathering = ""; return }
    if (gathering == "ghost") { ghost(impl, s); if (indent == from && s ~ /\}[;,]?$/) gathering = ""; return }
    if (gathering == "type" && (ghostly || s ~ /^ghost /)) { ghost(Name[n], s); ghostly = !(indent == Indent[n] + 4 && s ~ /[,}]$/); return }
    if (gathering != "") { add(s); close_item(s, indent); return }
    if (s ~ /^(ghost |pub(\([a-z_: ]*\))? )?use /) { if (s ~ /;$/) use_line(s); else { gathered = s; gathering = "use" }; return }
    if (s ~ /^(pub(\([a-z_: ]*\))? )?mod [a-z_0-9]+;$/) { rt_mod(s); return }
    if (s ~ /^(unsafe )?impl[ <]/ || s ~ /^(pub(\([a-z_: ]*\))? )?(unsafe )?trait /) { impl_head = s; if (s ~ /\{( *\})?$/) impl_line(indent); else gathering = "impl"; return }
    if (s == "}" && impl != "") { impl = ""; return }
    if (s ~ /^(pub(\([a-z_: ]*\))? )?(const |unsafe |final )*(extern "C" )?fn /) { fn(s, indent); return }
    if (impl != "" && s ~ /^ghost /) { from = indent; ghost(impl, s); if (s !~ /\}[;,]?$/) gathering = "ghost"; return }
    if (impl != "" && s ~ /^type .*;$/) return
    if (s ~ /^(pub(\([a-z_: ]*\))? )?(struct|enum|const|static|type) /) { rt_type(s, indent); return }
    if (s ~ /^#!?\[/) { if (s !~ /\]$/) gathering = "attribute"; return }
    # a module of tests, and a macro: nothing that a promise names stands in them
    if (s ~ /^(mod [a-z_0-9]+|macro_rules! [a-z_0-9]+) \{$/) { until = sprintf("%" indent "s", "") "}"; return }
    fail(s)
}

function ghost(type, s) {
    if (impl != "") given = given " " s
    if (!((place, type) in Ghost)) Ghosts[++ghosts] = place SUBSEP type
    Ghost[place, type] = Ghost[place, type] " " s
}

function rt_mod(s,    m) {
    m = s; sub(/^.*mod /, "", m); sub(/;$/, "", m)
    child[place, m] = crate "/src/" m
    if (s ~ /^pub mod /) shown[crate "/src/" m] = 1
}

function use_line(s) {
    if (s ~ /^ghost /) { import(s); return }
    sub(/^(pub(\([a-z_: ]*\))? )?use +/, "", s); sub(/ *; *$/, "", s)
    used_tree("", s)
}

# `a::b::C`, `a::b as c`, `a::{self, b, c::{d}}`
function used_tree(head, s,    at_, depth_, i, c, part_, name, path) {
    gsub(/^ +| +$/, "", s)
    if (s == "") return
    at_ = index(s, "{")
    if (at_ == 0) {
        name = path = s
        if (s ~ / as /) { sub(/ as .*/, "", path); sub(/.* as /, "", name) }
        else sub(/^.*::/, "", name)
        if (path == "self") { path = head; sub(/::$/, "", path); if (name == "self") { name = path; sub(/^.*::/, "", name) } }
        else path = head path
        if (name == "*") { c = path; sub(/::.*/, "", c); starred[place] = starred[place] " " c }
        used[place, name] = path
        return
    }
    head = head substr(s, 1, at_ - 1)
    depth_ = 0
    part_ = ""
    for (i = at_ + 1; i <= length(s); i++) {
        c = substr(s, i, 1)
        if (depth_ == 0 && (c == "," || c == "}")) { used_tree(head, part_); part_ = ""; if (c == "}") return; continue }
        depth_ += (c == "{") - (c == "}")
        part_ = part_ c
    }
}

# the type of `impl<..> T<..> {` or `impl<..> Trait<..> for T<..> where .. {`, or a trait's name
function impl_line(indent,    s) {
    gathering = ""
    s = impl_head
    sub(/^(pub(\([a-z_: ]*\))? )?(unsafe )?(impl|trait)/, "", s)
    s = past_angles(s)
    if (s ~ / for [A-Za-z&\[(]/) { sub(/^.* for /, "", s) }
    gsub(/^[ &]+/, "", s); sub(/[^A-Za-z_0-9:].*/, "", s); sub(/:$/, "", s); sub(/^.*::/, "", s)
    impl = s == "" ? "_" : s
    given = ""
    source = ""
    if (impl_head ~ / From<[A-Za-z_0-9]+> for /) { source = impl_head; sub(/^.* From</, "", source); sub(/> for .*$/, "", source) }
    if (impl_head ~ /^[^<]*trait /) { begin("type", impl, indent); s = impl_head; sub(/^pub(\([a-z_: ]*\))? /, "", s); sub(/ *\{( *\})?$/, "", s); add(s) }
    if (impl_head ~ /\{ *\}$/) impl = ""
}

# what stands behind the `<..>` that a text begins with
function past_angles(s,    i, c, d) {
    if (s !~ /^</) return s
    d = 0
    for (i = 1; i <= length(s); i++) {
        c = substr(s, i, 1)
        d += (c == "<") - (c == ">" && substr(s, i - 1, 1) != "-")
        if (d == 0) return substr(s, i + 1)
    }
    return s
}

function rt_type(s, indent,    name) {
    name = s
    sub(/^(pub(\([a-z_: ]*\))? )?(struct|enum|const|static|type) (mut )?/, "", name); sub(/[^A-Za-z_0-9].*$/, "", name)
    sub(/^pub(\([a-z_: ]*\))? /, "", s)
    gathering = s ~ /^(const|static|type) / ? "const" : "type"
    begin("type", impl == "" ? name : impl "::" name, indent)
    add(s)
    close_item(s, indent)
}

function close_item(s, indent) {
    if (gathering == "const" ? s ~ /;$/ : (s ~ /;$/ && s !~ /^ / && Indent[n] == indent) || (s ~ /\}$/ && indent == Indent[n])) gathering = ""
}

function fn(s, indent,    name, mark) {
    mark = s ~ /^pub (const |unsafe |final )*(extern "C" )?fn / ? "pub-fn" : "fn"
    sub(/^pub(\([a-z_: ]*\))? /, "", s)
    name = s; sub(/^(const |unsafe |final )*(extern "C" )?fn /, "", name); sub(/[^A-Za-z_0-9].*$/, "", name)
    if (impl != "" && source != "" && name == "from" && given ~ /ghost from_gives /) { mark = "pub-fn"; name = "from" snake(source) }
    begin(mark, impl == "" ? name : impl "::" name, indent)
    if (mark == "pub-fn" && name ~ /^from_/ && given != "") Contract[n] = given
    Impl[n] = impl
    gathering = "fn"
    header(s, indent)
}

# _a_type of AType
function snake(s,    i, c, out) {
    out = ""
    for (i = 1; i <= length(s); i++) { c = substr(s, i, 1); out = out (i == 1 || c ~ /[A-Z]/ ? "_" : "") tolower(c) }
    return out
}

# The signature, then the clauses, up to the `{` of the body, or the `;` of a method that a trait leaves open. What a clause goes by is no part of it.
function header(s, indent,    body) {
    if (indent == Indent[n] + 4 && s ~ /^(requires|ensures|ghost)[* ]/) { part = "contract"; if (s !~ /^ghost /) sub(/ +[a-z_0-9]+ *\{/, " {", s) }
    body = indent == Indent[n] && s ~ /^\{/
    if (part == "said" && s ~ /(^| )\{( .*\}|\})?$/) { body = 1; sub(/ *\{[^{]*$/, "", s) }
    if (!(indent == Indent[n] && s ~ /^\{/)) {
        if (part == "said") add(s)
        else Contract[n] = Contract[n] " " s
    }
    if (!body) { if (impl != "" && s ~ (part == "said" ? ";$" : "\\};$")) { gathering = ""; part = "" }; return }
    gathering = ""
    part = ""
    if ($0 !~ /\}$/) until = sprintf("%" Indent[n] "s", "") "}"
}

# ── words and what they name ──

function rust_words(s) {
    gsub(/::/, "\004", s)
    gsub(/->/, "\005", s)
    gsub(/[(){},;:&<>=*+]|\[|\]|\005/, " & ", s)
    return split(s, W, " ")
}

# what a word in the file p names, seen from the item number i; "" for nothing of ours or of a library that is brought in
function named(p, i, w,    head, tail, t) {
    if ((p, w) in at && at[p, w] <= i && p !~ /\/src\//) return Place[at[p, w]] "\003" Name[at[p, w]]
    if ((p, w) in brought) return target(brought[p, w])
    if (w !~ /[^.]\.[^.]/) return ""
    if (w ~ /^Rattle\./) {
        tail = w; sub(/^.*\./, "", tail)
        head = substr(w, 1, length(w) - length(tail) - 1)
        t = place_of(head)
        return target(t SUBSEP (declared == "" ? tail : declared))
    }
    head = w; sub(/\..*/, "", head)
    tail = substr(w, length(head) + 2)
    if ((p, head) in alias) {
        t = alias[p, head]
        if (index(t, SUBSEP) == 0) return t "." tail
        if (t ~ SUBSEP "$") { sub(/\..*/, "", tail); return target(t tail) }
        return target(t)
    }
    return named(p, i, head)
}

function lost(p, name) { printf "%s: no %s there\n", p, name > "/dev/stderr"; missing = 1 }

# an import's target as the item that it is: a constructor is its type; a crate of the kit, and a module that it makes of a source and that is no file, count as a library's
function target(t,    a, c) {
    if (index(t, SUBSEP) == 0) return t
    split(t, a, SUBSEP)
    while (a[1] in passed) a[1] = passed[a[1]]
    c = a[1]; sub(/\/.*/, "", c)
    if (a[1] == c "/src/lib" && !(a[1] in sources)) a[1] = c "/src/main"
    if (!(c in ours) || (a[1] ~ /\/(proofs|specs\/contracts)\// && !(a[1] in sources))) return a[1] "." a[2]
    if ((a[1], a[2]) in handed) return target(handed[a[1], a[2]])
    if (!((a[1], a[2]) in at)) { lost(a[1], a[2]); return "" }
    return Place[at[a[1], a[2]]] "\003" Name[at[a[1], a[2]]]
}

# what a Rust path in the file p names
function rust_named(p, i, w,    parts, k, c, m, j, full) {
    if (w == "self" || w == "Self") return Impl[i] == "" ? "" : rust_named(p, i, Impl[i])
    k = split(w, parts, "\004")
    if (k == 1 && (p, w) in at && Kind[at[p, w]] == "type") return p "\003" w
    if ((p, parts[1]) in used) {
        full = used[p, parts[1]]; gsub(/::/, "\004", full)
        for (j = 2; j <= k; j++) full = full "\004" parts[j]
        k = split(full, parts, "\004")
    } else if ((p, parts[1]) in child) {
        return k == 2 ? rust_item(child[p, parts[1]], i, parts[2]) : ""
    } else if (k == 1) return ""
    c = p; sub(/\/.*/, "", c)
    if (parts[1] != "crate") c = parts[1]
    m = ""
    for (j = 2; j < k; j++) m = m (j > 2 ? "/" : "") parts[j]
    return rust_item(c "/src/" (m == "" ? "lib" : m), i, parts[k])
}

# a type or a constant in the file p, perhaps handed on by a `use` there
function rust_item(p, i, name) {
    if ((p, name) in at && Kind[at[p, name]] == "type") return p "\003" name
    if ((p, name) in used) return rust_named(p, i, name)
    if (p in sources && name ~ /^[A-Z]/) lost(p, name)
    return ""
}

# the parameters of a function: in its contract they name nothing else
function parameters(i,    k, j) {
    k = rust_words(Said[i])
    for (j = 1; j < k; j++) if (W[j + 1] == ":") Param[i, W[j]] = 1
}

function first(w) { sub(/\..*/, "", w); return w }

# the words of a text, each with what it names
function marked(p, i, s, rust,    k, j, w, out, name, prev, next_, head) {
    k = rust ? rust_words(s) : words_of(s)
    out = ""
    for (j = 1; j <= k; j++) {
        w = W[j]; prev = j > 1 ? W[j - 1] : ""; next_ = j < k ? W[j + 1] : ""
        if ((w == "," || w == ";") && next_ ~ /^[])}]$/) continue
        name = ""
        if (w ~ /^\./ || w ~ /\.$/ || (next_ == "=" && prev ~ /^([{;]|let)$/) || (next_ == ":" && prev == "pub")) name = ""
        else if (!rust && ((i, w) in Param || (i, first(w)) in Param)) name = ""
        else if (rust) name = rust_named(p, i, w)
        else {
            name = named(p, i, w)
            if (name == "" && p ~ /\/src\//) { head = w; sub(/\..*/, "", head); name = rust_named(p, i, head) }
        }
        gsub(/\004/, "::", w); gsub(/\005/, "->", w)
        out = out (out == "" ? "" : " ") w (name == "" || name == Place[i] "\003" Name[i] ? "" : "\002" name)
    }
    return out
}

# a call: the file is shown, and its crate public
function called(p,    c) {
    c = p; sub(/\/.*/, "", c)
    return p in shown && index(" " public " ", " " c " ")
}

FNR == 1 {
    place = FILENAME
    sub(/^.*crates\//, "", place); sub(/\.[a-z]*$/, "", place)
    crate = place; sub(/\/.*/, "", crate)
    depth = 0; block[0] = 0; tele[0] = ""; open = ""; inside = ""; impl = ""; until = ""; gathering = ""; gathered = ""
    sources[place] = 1; ours[crate] = 1
    antt_file = FILENAME ~ /\.antt$/
    if (place ~ /\/src\/lib$/) shown[place] = 1
}
antt_file { antt($0); next }
{ rt($0) }

# what is ghost of a type, which may be another file's, goes to the type's item
function ghosts_placed(    j, part_, i, t) {
    for (j = 1; j <= ghosts; j++) {
        split(Ghosts[j], part_, SUBSEP)
        i = (part_[1], part_[2]) in at ? at[part_[1], part_[2]] : 0
        if (i == 0 && (t = rust_named(part_[1], 0, part_[2])) != "") { split(t, part_, "\003"); i = at[part_[1], part_[2]]; split(Ghosts[j], part_, SUBSEP) }
        if (i > 0) Ghostly[i] = (Ghostly[i] == "" ? "" : Ghostly[i] " ") marked(part_[1], i, Ghost[Ghosts[j]], 0)
    }
}

END {
    if (failed) exit 2
    ghosts_placed()
    for (i = 1; i <= n; i++) {
        rust = Place[i] ~ /\/src\//
        said = fixity[Place[i], Name[i]] marked(Place[i], i, Said[i], rust)
        if (Contract[i] != "") { parameters(i); said = said " " marked(Place[i], i, Contract[i], 0) }
        if (i in Ghostly) said = said " " Ghostly[i]
        kind = Kind[i]
        if (kind == "pub-fn") kind = called(Place[i]) ? "call" : "fn"
        print kind "\t" Place[i] "\t" Name[i] "\t" Line[i] "\t" said "\t" (Body[i] == "" ? "" : marked(Place[i], i, Body[i], 0))
    }
    if (missing) exit 2
}
