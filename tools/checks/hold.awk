# Holds answers to the plan that tools/checks/compile.awk made. Reads the plan, and the answers from the file `answers`; prints what docs/CALLS.md says of the script's
# checks: each one that failed, each section with its number of checks, and the sum. Fails where a check failed, or an answer is left over.

function fail(line, why) { failed++; print "line " line ": " why }

# The next answer; an empty one where there is none, which no call gives.
function next_answer(    s) { return (getline s <answers) > 0 ? s "" : "" }

# The four answers that show the state.
function next_state(    s, i) {
    s = ""
    for (i = 1; i <= 4; i++) s = s next_answer() "\n"
    return s
}

# Where the answer that is wanted ends in ` ~`, only what stands ahead of that is compared. As strings: -2 and -02 are two answers.
function fits(given, want,    n) {
    n = length(want) - 2
    if (want ~ / ~$/) return substr(given, 1, n) "" == substr(want, 1, n) ""
    return given "" == want ""
}

function judged(line, marks, want,    given, before, still) {
    given = next_answer()
    before = now
    if (marks ~ /k/) now = next_state()
    still = marks ~ /l/ || given ~ /^refused/
    if (given == "") fail(line, "no answer")
    else if (given ~ /^malformed call/) fail(line, given)
    else if (still && marks ~ /k/ && now != before) fail(line, "changed: " substr(given, 1, 200))
    else if (fits(given, want) == (marks ~ /!/)) fail(line, substr(given, 1, 200))
}

# The end of a section
function ended() {
    if (name != "") print name ": " (checks - checks_ahead) " checks" (failed > failed_ahead ? ", " (failed - failed_ahead) " failed" : "")
    checks_ahead = checks
    failed_ahead = failed
}

BEGIN { checks = failed = checks_ahead = failed_ahead = 0 }
/^section / { ended(); name = substr($0, 9); next }
/^state$/ { now = next_state(); next }
{ checks++ }
/^malformed / { fail($2, "malformed"); next }
/^call / {
    head = "call " $2 " " $3 " "
    judged($2, $3, substr($0, length(head) + 1))
}
END {
    ended()
    print checks " checks, " failed " failed"
    if ((getline s <answers) > 0) { print "an answer too many: " substr(s, 1, 200); failed++ }
    exit (failed > 0)
}
