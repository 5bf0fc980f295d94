# Turns the script of docs/CALLS.md into a stream of calls, on standard output, and into the plan by which tools/checks/hold.awk reads the answers, in the
# file `plan`. Bytes are written by %c, so LC_ALL must be C.
#
# A line of the plan:
#   section NAME              a section begins
#   state                     the four calls stand here that show the state
#   call LINE MARKS WANT      a call: the number of its line in the script; ! where the answer must be another one, l where the call only looks, k where the
#                             state is shown behind it too, - where none of these is so; the answer that is wanted
#   malformed LINE            a call that cannot be made, and so is not in the stream
#
# Where a call only looks, or may be refused by what the script says of it, the state is shown ahead of it and behind it. What is behind one such call is ahead of the next.

# The calls: number, name, and a letter for each operand. 1, 2, 4 and 8 a number of so many bytes, f flags (so f4224 are fields), r a raw, d data, s shorts, w words, b a
# room of bytes, n one of numbers, c one of causes; q, t, m and h what is forged of a TSN queue, of a reassembly queue, of a message in hand, of an in-flight
# queue. A * behind the number: the call only looks.
BEGIN {
    calls("1 sna32 44, 2 sna16 22, 3 tsn_distance 44, 4 ssn_distance 22, 67 tsn_compare 44, 68 ssn_compare 22, 5 header r, 6 data_unmarshal r, 7 data_user_data r")
    calls("8 data_marshal b1f4224d, 9 sack_unmarshal r, 10 sack_blocks r, 11 sack_duplicates r, 12 sack_block_at r8, 13 sack_duplicate_at r8, 14 sack_marshal b144ssw")
    calls("16 pq_new, 17* pq_can_push 44, 18 pq_push f422424, 19 pq_pop 4, 20 pq_pop_up_to 4, 21* pq_get 4, 22 pq_pop_duplicates, 23* pq_gap_ack_blocks 4nn2")
    calls("24* pq_last_tsn, 25* pq_num_bytes, 26* pq_len, 27* pq_is_empty, 28* pq_contains_stream 2, 29* pq_state, 30 pq_forge q28, 31* pq_whole")
    calls("32 rq_new 24, 33 rq_push f4224d, 34* rq_is_readable, 35 rq_read b1, 36 rq_forward_ordered 2, 37 rq_forward_unordered 4, 38* rq_num_bytes, 39* rq_state")
    calls("40 rq_forge t28, 41* rq_whole, 42 rq_forward_ordered_bounded 24, 43* rq_applicable_forward 244")
    calls("48* m_len, 49* m_is_empty, 50* m_read b1, 51* m_next 8, 52* m_forge m8")
    calls("53 fwd_unmarshal r, 54 fwd_streams r, 55 fwd_stream_at r8, 56 fwd_marshal b14ss, 57 pq_apply_forward 44, 58 rq_apply_forward r44")
    calls("59 crc32c r, 60 packet r, 61 packet_chunk r8, 62 packet_bytes r8, 63 packet_walk r, 64 packet_marshal b1224r, 65 error_unmarshal rcccc2, 66 abort_unmarshal rcccc2")
    calls("69 iq_new, 70 iq_push f422428, 71 iq_acked 4, 72 iq_retransmit, 73 iq_abandon 8, 74 iq_pop 4, 75 iq_pop_up_to 4, 76* iq_get 4, 77* iq_num_bytes, 78* iq_len")
    calls("79* iq_is_empty, 80* iq_state, 81 iq_forge h28, 82* iq_whole")
    HALF = 4294967296
    # how many bytes a number of a letter has, and the most that it may be where not all that fit will do
    widths("1 1, 2 2, 4 4, 8 8, b 4 65600, n 2 16400, c 2 10000, q 1 4, t 1 9, m 1 3, h 1 3")
    for (i = 0; i < 256; i++) value[sprintf("%02x", i)] = i
    bit["E"] = 1; bit["B"] = 2; bit["U"] = 4; bit["I"] = 8
    shown = 0
}

function calls(text,    n, i, item, w) {
    n = split(text, item, ", ")
    for (i = 1; i <= n; i++) {
        split(item[i], w, " ")
        looks[w[2]] = sub(/\*/, "", w[1])
        number_of[w[2]] = w[1] + 0
        form[w[2]] = w[3]
    }
}

function widths(text,    n, i, item, w) {
    n = split(text, item, ", ")
    for (i = 1; i <= n; i++) {
        split(item[i], w, " ")
        width[w[1]] = w[2] + 0
        most[w[1]] = w[3] == "" ? HALF : w[3] + 0
    }
}

# ── a line as it is to be read ──

# `{N TEXT}` stands for N times TEXT, and dots are dropped; `bad` where a brace is not closed, or there is no number.
function expanded(s,    out, from, to, inner, space) {
    out = ""
    while ((from = index(s, "{")) > 0) {
        out = out substr(s, 1, from - 1)
        s = substr(s, from + 1)
        to = index(s, "}")
        inner = substr(s, 1, to - 1)
        space = index(inner, " ")
        if (inner !~ /^[0-9]+ /) { bad = 1; return "" }
        out = out repeated(substr(inner, space + 1), substr(inner, 1, space - 1) + 0)
        s = substr(s, to + 1)
    }
    out = out s
    gsub(/\./, "", out)
    return out
}

function repeated(s, n,    half) {
    if (n == 0) return ""
    half = repeated(s, int(n / 2))
    return n % 2 ? half half s : half half
}

# ── the bytes of a call ──

function put(b) { byte[++size] = b }
function put16(n) { put(int(n / 256)); put(n % 256) }
function put32(n) { put16(int(n / 65536)); put16(n % 65536) }

# A number in decimal digits, with so many steps added, at which it wraps at its width; `bad` where it is none, does not fit, or is above the limit.
function number(word, bytes, limit, step,    i, n, high, low) {
    if (word !~ /^[0-9]+$/ || length(word) > 20) { bad = 1; return }
    if (bytes == 8) {
        # in two halves, since no number of awk has 64 bits
        high = low = 0
        for (i = 1; i <= length(word); i++) {
            low = low * 10 + substr(word, i, 1)
            high = high * 10 + int(low / HALF)
            low = low % HALF
        }
        if (high >= HALF) bad = 1
        low += step
        put32((high + int(low / HALF)) % HALF)
        put32(low % HALF)
        return
    }
    n = word + 0
    if (n >= 256 ^ bytes) { bad = 1; return }
    n = (n + step) % 256 ^ bytes
    if (n > limit) bad = 1
    if (bytes == 1) put(n)
    else if (bytes == 2) put16(n)
    else put32(n)
}

function raw(word,    n, i, pair) {
    n = length(word)
    if (n % 2 || n / 2 > 65600) { bad = 1; return }
    put32(n / 2)
    for (i = 1; i < n; i += 2) {
        pair = substr(word, i, 2)
        if (!(pair in value)) { bad = 1; return }
        put(value[pair])
    }
}

function data(word,    colon) {
    colon = index(word, ":")
    number(substr(word, 1, colon - 1), 4, 65600, 0)
    number(substr(word, colon + 1), 1, 255, 0)
}

function flags(word,    i, letter, bits) {
    bits = 0
    for (i = 1; i <= length(word); i++) {
        letter = substr(word, i, 1)
        if (!(letter in bit) || index(substr(word, i + 1), letter)) { bad = 1; return }
        bits += bit[letter]
    }
    put(bits)
}

function numbers(word, bytes,    n, i, item) {
    n = split(word, item, ",")
    if (n > 16400) { bad = 1; return }
    put16(n)
    for (i = 1; i <= n; i++) number(item[i], bytes, HALF, 0)
}

# A dash stands for nothing.
function undashed(word) { return word == "-" ? "" : word }

function operand(word, letter, step) {
    if (letter == "r") raw(undashed(word))
    else if (letter == "d") data(word)
    else if (letter == "f") flags(undashed(word))
    else if (letter == "s") numbers(undashed(word), 2)
    else if (letter == "w") numbers(undashed(word), 4)
    else if (sub(/\+$/, "", word)) number(word, width[letter], most[letter], step)
    else number(word, width[letter], most[letter], 0)
}

# The call of the words, as it is done for the time `step`, from 0 on.
function encoded(step,    name, i) {
    name = word[1]
    size = 0
    if (!(name in number_of) || words != length(form[name]) + 1) { bad = 1; return }
    put(number_of[name])
    for (i = 2; i <= words && !bad; i++) operand(word[i], substr(form[name], i - 1, 1), step)
}

function written(    i) {
    for (i = 1; i + 7 <= size; i += 8) printf "%c%c%c%c%c%c%c%c", byte[i], byte[i + 1], byte[i + 2], byte[i + 3], byte[i + 4], byte[i + 5], byte[i + 6], byte[i + 7]
    for (; i <= size; i++) printf "%c", byte[i]
}

# ── the plan ──

# pq_whole, iq_whole, rq_whole and rq_state
function state() { printf "%c%c%c%c", 31, 82, 41, 39; shown = 1 }

# May the answer be a refusal, as far as the script says it?
function refusable(want, other) { return other || want ~ /^refused/ || want ~ / ~$/ }

function once(step, want, other,    kept, marks) {
    bad = 0
    encoded(step)
    if (bad) { print "malformed " NR >plan; return }
    kept = looks[word[1]] || refusable(want, other)
    if (kept && !shown) { print "state" >plan; state() }
    shown = 0
    written()
    if (kept) state()
    marks = (other ? "!" : "") (looks[word[1]] ? "l" : "") (kept ? "k" : "")
    print "call " NR " " (marks == "" ? "-" : marks) " " want >plan
}

/^$/ || /^#/ { next }
/^== ./ { print "section " substr($0, 4) >plan; next }
{
    bad = 0
    line = expanded($0)
    other = sub(/^! /, "", line)
    times = 1
    if (match(line, /^[0-9]+ times /)) { times = line + 0; line = substr(line, RLENGTH + 1) }
    at = index(line, " = ")
    want = substr(line, at + 3)
    words = split(substr(line, 1, at - 1), word, /[ ]/)
    for (step = 0; step < times; step++) once(step, want, other)
}
