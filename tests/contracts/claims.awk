# Claims that say nothing: an equation of a thing with itself or in a type of one value, a definition that is `Unit` whatever it is given, and one
# that does not use what it is given.

# The words from one place to another, without brackets around them all.
function spelled(from, to,    said) {
    while (from < to && opens(from) && partner[from] == to) { from++; to-- }
    for (said = ""; from <= to; from++) said = said " " token[from]
    return said
}
# Whether the same stands on both sides of the sign at k, in its brackets or up to the next sign that binds less.
function both_same(k,    from, to) {
    for (from = k - 1; from > outer[k] && !binds_less(from); from--) if (closes(from)) from = partner[from]
    if (token[from] == "λ") while (from < k && token[from] != ".") from++
    for (to = k + 1; to < end_of(k) && !closes(to) && !binds_less(to); to++) if (opens(to)) to = partner[to]
    return spelled(from + 1, k - 1) == spelled(k + 1, to - 1)
}
function binds_less(k) { return token[k] ~ /^(→|×|⊎|↔|λ|:|=|;|,|\||↦|⌜|⌝|in|where)$/ }

# The place after the brackets, the declaration or the clause that k stands in.
function end_of(k) {
    if (outer[k]) return partner[outer[k]]
    for (k++; k <= count && token[k] != "where" && !starts[k]; ) k++
    return k
}

# The signature with its `:` at k begins new definitions. A type of one value has no name, and no open definition has one.
function signature(k,    from, end, j) {
    from = left_side(k)
    if (token[from - 1] == "let") return
    end = end_of(k)
    for (j = from; j < k; j++) if (token[j] in clauses) definition_ends(token[j])
    if (token[j = from] == "pub") j++
    if (token[j] == "record" && !(end < count && margin[end + 1] > margin[j])) fault(place[j], "`" token[j + 1] "` has one value")
    if (token[j] == "data" && one_constructor(end, margin[j])) fault(place[j], "`" token[j + 1] "` has one value")
    if (token[end - 1] == "}") end = partner[end - 1]
    for (j = from; j < k; j++)
        if (is_open(token[j]) && token[end - 1] == "Unit" && token[end - 2] ~ /^(→|:)$/) fault(place[j], "`" token[j] "` has one value")
}
function one_constructor(k, column,    names) {
    for (k++; k <= count && margin[k] > column; k++) {
        if (token[k] == "→" || opens(k)) return 0
        if (token[k] == ":") names += k - left_side(k)
    }
    return names == 1
}

# The clause with its `=` at k, of the definition that its first word names:
#     clauses, line     how many it has, and where
#     says              one of them says something
#     uses              one of them uses what it is given, or has another right side than the first
#     unused            what one of them does not use
function clause_of(k,    from, end, name, j, i) {
    from = left_side(k)
    if (typed || token[from - 1] == "let") return
    end = end_of(k)
    name = token[from]
    if (!clauses[name]++) {
        line[name] = place[from]
        right[name] = spelled(k + 1, end - 1)
    }
    if (!says_nothing(k + 1, end)) says[name] = 1
    if (k == from + 1 || right[name] ~ /"/ || right[name] != spelled(k + 1, end - 1)) uses[name] = 1
    for (i = from + 1; i < k; i++) {
        if (token[i] !~ /^[A-Za-z]/ || token[i] in known || token[i] in made_here || token[i - 1] == "(" && token[i + 1] != ")") continue
        for (j = k + 1; j < end && token[j] != token[i]; ) j++
        if (j < end) { uses[name] = 1; continue }
        unused[name] = token[i]
        if (is_open(name)) idle_clause[file ":" place[from] ": `" name "` does not use `" token[i] "`"] = name
    }
}
function definition_ends(name,    words) {
    # what answers the prover's goals is cited by no statement
    if (file ~ /\/proofs\/([a-z_+][a-z_0-9+]*\/)+(Invariants|Answers)[.]antt$/) { delete clauses[name]; delete says[name]; delete uses[name]; delete unused[name]; return }
    if (!(name in says)) fault(line[name], "`" name "` is `Unit` whatever it is given")
    if (clauses[name] == 1 && name in unused) words = "does not use `" unused[name] "`"
    else if (!(name in uses)) words = "is the same whatever it is given"
    if (words != "" && name in unfolds && is_open(name)) fault(line[name], "`" name "` " words)
    else if (words != "" && is_open(name)) idle[file ":" line[name] ": `" name "` " words] = name
    delete clauses[name]
    delete says[name]
    delete uses[name]
    delete unused[name]
}
# The right side from k on is `Unit`, or many of it, or a function to it or from ⊥.
function says_nothing(k, end,    from) {
    if (token[k] == "⊥" && token[k + 1] == "→") return 1
    from = token[end - 1] == "}" ? partner[end - 1] - 1 : end - 1
    if (token[from] == "Unit" && token[from - 1] == "→") return 1
    for (from = 0; k < end; k++) {
        if (token[k] == "Unit") from = 1
        else if (token[k] !~ /^([(){}0-9]|×)$/) return 0
    }
    return from
}

function claims(    k, name) {
    for (k = 1; k <= count; k++) {
        if (token[k] ~ /^(≡|↔|≤)$/ && both_same(k)) fault(place[k], "the same stands on both sides of `" token[k] "`")
        if (outer[k]) continue
        if (token[k] == ":") signature(k)
        if (token[k] == "=") clause_of(k)
    }
    for (name in clauses) definition_ends(name)
}
