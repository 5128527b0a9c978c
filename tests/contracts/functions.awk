# The functions of a file of Rattle. A public function of a library has an `ensures` and no `requires`. Its `ensures` are equations, orders and claims
# of specs/. They name its result, every parameter, and what each lent thing holds at entry and, where it is lent for change, at
# exit.
BEGIN {
    each(programs, program)
    built_in = "^([iu](8|16|32|64|128|size)|f32|f64|bool|char|str)$"
}
function of_public(words) { fault(place[head], "the public function " token[head + 1] " " words) }
function in_clause(name) { return name in reserved ? "«" name "»" : name }

# The bracket of the clause that begins with the `requires` or `ensures` at k, or 0.
function clause_bracket(k,    from) {
    for (from = k++; k <= from + 3; k++) if (opens(k)) return token[k] == "{" && clause_word_before(k) == from ? k : 0
    return 0
}
# The end of the head of the function at k: its body, or a `;`.
function head_end(k) {
    for (; k <= count && token[k] !~ /^[{;]$/; k++) {
        if (token[k] ~ /^(requires|ensures)$/ && clause_bracket(k)) k = partner[clause_bracket(k)]
        else if (opens(k)) k = partner[k]
    }
    return k
}
# The bracket of the parameters of the function with its `fn` at k, past its type parameters.
function parameter_bracket(k,    depth) {
    for (k += 2; k <= count; k++) {
        if (token[k] == "<") depth++
        else if (token[k] == ">" && token[k - 1] != "-") depth--
        else if (token[k] == "(" && !depth) return k
    }
    return count
}

# The parameters in the brackets at `from`: lent[name] is 0, or 1 for `&`, or 2 for `&mut`. The function's clauses know them.
function parameters(from, public,    k, name, depth) {
    for (name in lent) delete known[in_clause(name)]
    split("", lent)
    for (k = from + 1; k < partner[from]; k++) {
        while (token[k] ~ /^(&|mut|\047)$/) k += token[k] == "\047" ? 2 : 1
        name = token[k]
        if (public && (name !~ /^[a-z][a-z_0-9]*$/ || name != "self" && token[k + 1] != ":")) fault(place[k], "a parameter that is no plain name")
        if (name in home && !(name in variable)) other_meaning(k, name)
        hides(k, -1, "")
        lent[name] = token[k + 2] != "&" ? 0 : token[k + 3] == "mut" || token[k + 3] == "\047" && token[k + 5] == "mut" ? 2 : 1
        if (name == "self") lent[name] = token[k - 1] == "&" ? 1 : token[k - 1] == "mut" && token[k - 2] == "&" ? 2 : 0
        for (depth = 0; k < partner[from] && (token[k] != "," || depth); k++) {
            if (token[k] == "<") depth++
            else if (token[k] == ">" && token[k - 1] != "-") depth--
            else if (opens(k)) k = partner[k]
        }
    }
    for (name in lent) known[in_clause(name)] = 0
}

# The function with its `fn` at k.
function function_at(k,    from, end, public, requires, ensures, at) {
    head = k
    for (from = k - 1; token[from] ~ /^(const|unsafe|extern|")$/; ) from--
    if (closes(from)) from = partner[from] - 1
    public = token[from] == "pub"
    end = head_end(k)
    for (from = public ? from : k; from < end; from++) if (remark[from]) fault(place[from], "a comment in the head of a function")
    from = parameter_bracket(k)
    if (token[k - 2] token[k - 1] == "extern\"") exported(k, from)
    if (crate_of(file) in program) public = 0
    parameters(from, public)
    if (!public) return
    split("", named)
    for (k = partner[from] + 1; k < end; k++) {
        at = token[k] ~ /^(requires|ensures)$/ ? clause_bracket(k) : 0
        if (at && token[k] == "requires") requires = 1
        else if (at) { ensures = 1; promise(k, at + 1, partner[at] - 1) }
        if (at) k = partner[at]
        else if (opens(k)) k = partner[k]
    }
    if (requires) of_public("has a `requires`")
    if (ensures) names_all(token[partner[from] + 1] == "-")
    else of_public("has no `ensures`")
}
function crate_of(path,    folder) { split(path, folder, "/"); return folder[2] }

# What all the `ensures` of a function name.
function names_all(answers,    name) {
    if (answers && !("result" in named)) of_public("does not name its result in its `ensures`")
    for (name in lent) {
        if (!(in_clause(name) in named)) of_public("does not name " name " in its `ensures`")
        else if (lent[name] && !(in_clause(name) " entry" in named)) of_public("does not say in its `ensures` what " name " holds at entry")
        else if (lent[name] == 2 && !(in_clause(name) " exit" in named)) of_public("does not say in its `ensures` what " name " holds at exit")
    }
}

# An `ensures` with its word at `head_word`, from one place to another: a plain fact. What is lent is .now, or, lent for change, .old and .new.
function promise(head_word, from, to,    k, what) {
    if (token[head_word + 1] == "*") { of_public("has an `ensures*`"); return }
    for (k = from; k <= to; k++) {
        if (token[k] ~ /^(→|⊎|↔|¬|⊥|⊤|⌜|⌝)$/) { of_public("has an `ensures` with `" token[k] "`"); return }
        named[token[k]] = 1
        if (token[k] in known && !(token[k] in lent)) cited[token[k]] = 1
        if (dot[k + 1] != "path") continue
        what = token[k + 2]
        if (what ~ /^(entry|exit)$/ && dot[k + 3] == "path" && token[k + 4] == "now") named[token[k] " " what] = 1
        if (what ~ /^(now|old)$/) named[token[k] " entry"] = 1
        if (what == "new") named[token[k] " exit"] = 1
    }
    claim(from, to)
}
# Claims joined by ×: each an equation or an order, with what the function leaves on one side of it, or a definition of specs/ that the file imports.
# Of the library's words only those are taken that say which bytes went; the others are about one way alone, as IfOk.
function claim(from, to,    k, sign) {
    while (opens(from) && partner[from] == to) { from++; to-- }
    for (k = from; k <= to; k++) {
        if (token[k] == "×") { claim(from, k - 1); claim(k + 1, to); return }
        if (token[k] ~ /^(≡|<|≤)$/) sign = k
        if (opens(k)) k = partner[k]
    }
    if (!sign && token[from] in known && !(token[from] in lent) && (!(token[from] in of_library) || token[from] ~ /^(Appends|Consumes)$/)) claimed[token[from]] = 1
    else if (!sign) of_public("has an `ensures` that is no equation, no order and no claim of specs/")
    else if (spelled(from, sign - 1) == spelled(sign + 1, to)) of_public("has the same on both sides of its `ensures`")
    else if (leaves(from, sign - 1) && leaves(sign + 1, to)) of_public("has what it leaves on both sides of its `ensures`")
}
function leaves(from, to) {
    for (; from <= to; from++) if (token[from] == "result" || dot[from] == "path" && token[from + 1] ~ /^(new|exit)$/) return 1
    return 0
}

# A word of a clause, and one of the code.
function clause_word(k) {
    if (token[k] in reserved) fault(place[k], "a clause with `" token[k] "`")
    if (token[k] ~ /^(≡|↔|≤)$/ && both_same(k)) fault(place[k], "the same stands on both sides of `" token[k] "`")
    term_word(k)
    binders(k)
}
function code_word(k) {
    if (token[k] == "fn") function_at(k)
    if (token[k] == "ghost" && token[k + 1] != "use") fault(place[k], "a `ghost` that is no `ghost use`")
    if (token[k] == "type" || token[k] ~ /^(struct|enum|mod)$/ && token[k + 1] ~ built_in) fault(place[k], "a type under another name")
    # a method or a function of another module may have such a name, and its clauses are read where they stand
    if (token[k] ~ /^(length|get_or|take|drop|set)$/ && token[k - 1] !~ /^[.:]$/) fault(place[k], "`" token[k] "` means what the library says, and is no name of the code")
    # a field: of what is lent, a clause says by these words what it holds
    if (token[k] ~ /^(now|old|new|entry|exit)$/ && token[k + 1] == ":" && token[k + 2] != ":" && token[outer[k]] == "{" && token[k - 1] ~ /^([{,)]|pub)$/) fault(place[k], "`" token[k] "` means what a clause says, and is no name of the code")
    if (token[k] == "use" && token[k - 1] != "ghost")
        for (; k <= count && token[k] != ";"; k++) if (token[k] == "as") fault(place[k], "a `use` under another name")
}

function rattle_file(    k) {
    stated = 1
    split("", known)
    split("", of_library)
    split("", lent)
    known["result"] = 0
    for (k = 1; k <= count; k++) {
        if (part[k] != "") any_word(k)
        if (token[k] == "use" && token[k - 1] == "ghost") use_item(k + 1, "", 0)
    }
    for (k = 1; k <= count; k++) {
        if (part[k] == "clause") clause_word(k)
        else if (part[k] == "") code_word(k)
    }
}
