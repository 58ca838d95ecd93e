# A line for each pub fn of the sources that are read, each fn of a pub trait, and each conversion (`from`, by its `from_gives`): CRATE FN NAME. NAME is the predicate that its first `ensures` says of the whole outcome, which is its
# answer and whatever is lent for writing: `≡` with what it is equal to, `Decides` with the statement, another with what it is said of, `Says` and `Results`
# with the reading. Where the first `ensures` has another form, or says something of a part of the outcome alone, NAME is '?' and the promise follows.
FNR == 1 { trait = 0 }
/^pub trait .*\{$/ { trait = 1 }
/^}$/ { trait = 0 }
trait && /^    fn / { sub(/^    fn /, "    pub fn ") }
/^    ghost from_gives = / { split(FILENAME, path, "/"); if (path[1] == "rules") print path[1], "from", /λ why n\. n ≡ / ? "≡" : "? " $0 }
FNR == 1 || /^ *pub (extern "C" )?fn / { if (inside) print crate, "? a signature without an end"; inside = 0 }
/^ *pub (extern "C" )?fn / { text = ""; inside = 1; split(FILENAME, path, "/"); crate = path[1] }
inside { text = text " " $0 }
inside && (/\{$/ || trait && /;$/) { sub(/;$/, " {", text); tell(text); inside = 0 } # where the body begins, or none is
END { if (inside) print crate, "? a signature without an end" }

# what is lent for writing, and the answer
function outcome(signature,    rest, name, lent) {
    split("", parts)
    count = 0
    if (signature ~ /-> &/) parts[++count] = "result.now"
    else if (signature ~ /-> Option<\([^)]*&/) parts[++count] = "seen result" # with the bytes for the reference to them
    else if (signature ~ /->/) parts[++count] = "result"
    rest = signature
    gsub(/&'[a-z]+ mut /, "\\&mut ", rest)
    while (match(rest, /&mut /)) {
        name = substr(rest, 1, RSTART - 1)
        rest = substr(rest, RSTART + RLENGTH)
        lent = rest
        if (!sub(/: $/, "", name)) name = "self"
        sub(/.*[^A-Za-z0-9_]/, "", name)
        if (name == "record") name = "«record»" # a word of the specifications' language
        # of a run that is lent as a struct, its words: that it is the same run and for as many seats its promise says by `Keeps`
        parts[++count] = name ".new" (lent ~ /^RunMut</ || name == "self" && crate == "steps" ? ".words.now" : "")
    }
}

# is it all of the outcome, each part once and as it is; does it name any
function all(said,    i, at) {
    for (i = 1; i <= count; i++) {
        if (!(at = index(said, parts[i]))) return 0
        said = substr(said, 1, at - 1) substr(said, at + length(parts[i]))
    }
    gsub(/∷/, "", said)
    return count > 0 && said ~ /^[][ (),]*$/
}
function any(said) {
    return index(said, ".new") || said ~ /(^|[^A-Za-z_.])result([^A-Za-z_]|$)/
}

function tell(text,    fn, at, signature, promise, lent) {
    fn = text
    sub(/^ *pub (extern "C" )?fn /, "", fn)
    sub(/[(<].*/, "", fn)
    at = index(text, " ensures ")
    signature = at ? substr(text, 1, at) : text
    sub(/ requires .*/, "", signature)
    outcome(signature)
    promise = at ? substr(text, at + length(" ensures ")) : "{ no promise } {"
    promise = substr(promise, index(promise, "{ ") + length("{ "))
    if (match(promise, / \} +ensures /)) promise = substr(promise, 1, RSTART - 1)
    sub(/ \} *\{ *$/, "", promise)
    for (at = 1; at <= count; at++) {
        lent = parts[at]
        if (sub(/\.new\.words\.now$/, "", lent) && !index(text, "Keeps " lent ".old " lent ".new")) promise = "? no Keeps of " lent
    }
    print crate, fn, shape(promise)
}

function shape(promise,    at, left, right, name) {
    at = index(promise, " ≡ ")
    left = substr(promise, 1, at - 1)
    right = substr(promise, at + length(" ≡ "))
    if (at && count == 1 && left == parts[1] && !any(right)) return "≡"
    left = promise
    if (sub(/^Decides result /, "", left)) return count == 1 && !any(left) ? "Decides" : "? " promise
    # the outcome is the last that the predicate is given
    if (match(promise, / \(result, .*\)$/) || match(promise, / result\.now$/) || match(promise, / \(seen result\)$/) || match(promise, / result$/)) {
        right = substr(promise, RSTART)
        left = substr(promise, 1, RSTART - 1)
        name = match(left, /^(Says|Results) [A-Za-z_]+ /) || match(left, /^[A-Z][A-Za-z]* /) ? substr(left, 1, RLENGTH - 1) : "?"
        if (all(right) && !any(left) && name !~ /^(Says|Results|\?)$/) return name
    }
    return "? " promise
}
