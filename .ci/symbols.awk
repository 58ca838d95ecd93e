# Which names of .ci/symbols, the first file, mean something else in the other files: the prelude of the proofs, which is to come second, the promises (src),
# the definitions (specs), and the files of proofs that are given. The prelude passes names on, as they are, and has nothing else; only proofs bring names
# from it. A line for each that is brought from another module or under another name, passed on, or bound there; one for each of the toolchain's names that
# a promise or a definition brings and .ci/symbols does not have; and one for each import of a form that is not read here. At the end, how many names were
# brought. `crates` has our own.
BEGIN { split("zero suc true false [] yes no Some None Ok Err", word, " "); for (i in word) constructor[word[i]] }
FNR == NR && /^#/ { next }
FNR == NR && /^here / { sub(/^here /, ""); for (i = 2; i <= NF; i++) word_too[$i] }
FNR == NR { for (i = 2; i <= NF; i++) { home[$i] = home[$i] " " $1; at_home[$i, $1] }; split($1, path, "."); library[path[1]]; next }
FNR == 1 { flush(); signature = 0; kind = FILENAME ~ /\/src\// ? "src" : FILENAME ~ /\/specs\// ? "specs" : "proofs" }
FNR == 1 && FILENAME == "promises/proofs/Prelude.antt" { kind = "prelude" }
{ gsub(/«/, ""); gsub(/»/, "") } # the same name
kind == "src" {
    line = $0
    sub(/ *\/\/.*/, "", line)
    if (line ~ /ghost +use/) promise_import(line)
    if (line ~ /^ *(pub )?(extern "C" )?fn /) signature = 1
    if (signature) { text = line; gsub(/:/, " : ", text); bound(text); whole_path(line) } # the parameters, and what a promise binds
    if (line ~ /^ *\{$|\{$/ && line !~ /(requires|ensures)/) signature = 0
    next
}
{ line = $0; sub(/(^| +)--.*/, "", line) }
kind == "prelude" && line !~ /^(pub use .*)?$/ { tell("the prelude has more than names that it passes on: " line); next }
FILENAME ~ /\/Lib\.antt$/ && line ~ /^(pub )?mod [A-Za-z]+$/ { next }
line ~ /(^|[^A-Za-z_-])(use|mod|open)( |$)|\{-|-\}/ { import(line); next }
line ~ /^ *infix/ { given(line, 0); next }
{ whole_path(line) }
# a clause goes on over the lines that are indented
line ~ /^[^ ]/ || line ~ /^ +(abbrev |unfoldable |pub )/ { flush(); clause = line; begun = FILENAME ":" FNR; next }
{ clause = clause " " line }
END { flush(); print "names:", names + 0 }

function flush() {
    place = begun
    bound(clause)
    place = clause = ""
}

function tell(what) { print (place ? place : FILENAME ":" FNR) ": " what }

# a name that is written with its module needs no import
function whole_path(text) {
    if (kind != "proofs" && text ~ /(^|[^A-Za-z0-9_.])(Rattle|Prim|core|std|std_[a-z]+|mathlib|lib|native|text|seplogic|mir|base|store|ghost|prog|types|contract|denote|abs|borrow)\.[A-Za-z]/) tell("a name by its whole path: " text)
}

function promise_import(text) {
    if (sub(/^ *ghost /, "", text) && sub(/;$/, "", text)) import(text)
    else tell("an import of a form that is not read: " text)
}

# `use MODULE.{NAME, NAME as NAME}`, the same with `pub`, and `use MODULE as NAME`; nothing else on the line
function import(text,    passed, module, name, count, i) {
    passed = sub(/^pub /, "", text)
    module = text
    if (text ~ /^use [^ {}*]+\.\{[^{}.]+\}$/) {
        sub(/^use /, "", module)
        sub(/\.\{.*/, "", module)
        sub(/^[^{]*\{/, "", text)
        sub(/\}$/, "", text)
        count = split(text, name, /, */)
        for (i = 1; i <= count; i++) brought(module, name[i], passed)
    } else if (!passed && text ~ /^use [^ {}*]+ as [^ {}*]+$/) {
        split(text, name, " ")
        if (!ours(name[2])) tell("the toolchain's " name[2] " is called " name[4])
        if (name[4] in home || name[4] in library) tell("a module of ours is called " name[4])
    } else tell("an import of a form that is not read: " text)
}

function ours(module) {
    if (!sub(/^Rattle\./, "", module)) return 0
    sub(/[^a-z0-9_].*/, "", module)
    return index(" " crates " ", " " module " ")
}

function brought(module, name, passed,    old) {
    names++
    old = name
    brings[FILENAME, name]
    if (kind == "prelude") {
        passed = 0
        if (ours(module) || name ~ / as /) tell("the prelude passes on " name " of " module)
        passes_on[name] = module
    } else if (module ~ /^Rattle\.promises\.proofs\.Prelude$/) {
        if (kind != "proofs") tell(name " comes by way of the prelude, which is for proofs")
        else if (name in passes_on) module = passes_on[name]
    }
    if (sub(/.* as /, "", name)) sub(/ as .*/, "", old)
    if (name in home && !((name, module) in at_home)) tell(name " comes from " module ", not from" home[name])
    else if (name in home && old != name) tell(name " is " old " by another name")
    else if (name in home && passed) tell(name " is passed on")
    else if (!(name in home) && kind ~ /^(src|specs)$/ && !ours(module)) tell(name " of " module " is not in .ci/symbols")
    else if (kind == "src" && ours(module) && module !~ /^Rattle\.[a-z0-9_]+\.specs\./) tell(name " comes from " module ", which is no definition")
}

# The names that a declaration, a binder, a λ, a let and the left side of a clause give. `run` has the words since the last sign or bracket, `left` those of the
# clause's left side but the first, and `top` the words outside brackets before a declaration's colon.
function bound(text,    token, count, i, depth, run, left, top, on_left) {
    gsub(/[(){}.;,]/, " & ", text)
    count = split(text, token, " ")
    on_left = 1
    for (i = 1; i <= count; i++) {
        if (token[i] ~ /^[({]$/) depth++
        if (token[i] ~ /^[)}]$/) depth--
        if (token[i] == "." && run ~ /^λ /) given(run, 0)
        if (token[i] == ":" && (depth > 0 || run ~ /^let /)) given(run, 0)
        else if (token[i] == ":" && on_left) given(top, 0)
        if (token[i] == "=" && run ~ /^let /) given(run, 1)
        else if (token[i] == "=" && on_left && depth == 0) given(left, 1)
        if (token[i] ~ /^(let|λ)$/) run = token[i] " "
        else if (token[i] ~ /^[(){}.;,:=]$/ || token[i] == "→") run = ""
        else run = run token[i] " "
        if (i > 1) left = left token[i] " "
        if (depth == 0) top = top token[i] " "
        if (run ~ /^let / || (token[i] ~ /^[:=]$/ || token[i] == "→") && depth == 0) on_left = 0
    }
}

# in a pattern a constructor is no new name
function given(list, pattern,    name, count, i) {
    count = split(list, name, " ")
    for (i = 1; i <= count; i++) if (name[i] in home && !(pattern && name[i] in constructor) && (!(name[i] in word_too) || (FILENAME, name[i]) in brings)) tell(name[i] " gets another meaning")
}
