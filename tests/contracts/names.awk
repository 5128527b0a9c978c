# What a name means. A name of the list below is imported from its home alone, or from where the library passes it on, and nothing else is declared,
# bound or imported under it. A name that is declared or bound is a word, so that it looks like no claim, and hides nothing that the file imports or
# declares for others.
function of(modules, names,    list, from, n, m) {
    split(modules, from, " ")
    for (n = split(names, list, " "); n; n--) {
        home[list[n]] = from[1] "." list[n]
        for (m in from) { at_home[from[m] "." list[n]] = list[n]; modules_of(from[m]) }
    }
}
# The modules of a path, from the library down.
function modules_of(path) { while (path != "") { module[path] = 1; if (!sub(/[.][^.]*$/, "", path)) path = "" } }
function each(words, set,    list, n) { for (n = split(words, list, " "); n; n--) set[list[n]] = 1 }
BEGIN {
    # what the library itself passes on
    prelude = " Rattle.std.specs.Prelude Rattle.core.specs.Prelude Rattle.std.proofs.Common"
    math = "Rattle.std.proofs.Math."
    lemmas = " Rattle.std.proofs.lemmas.List"
    of("Prim", "⊥ Unit tt absurd ¬◌ Dec yes no Id J IsProp IsSet Discrete ∥◌∥₁ ∣◌∣₁ squash₁")
    of("Prim.Native.Nat" prelude, "ℕ zero suc pred ◌+◌ ◌*◌ ◌-◌ ◌/◌ ◌%◌ ◌^◌ ◌<◌ ◌≤◌ min max")
    of("Prim.Native.Char", "code")
    of("Prim.Native.String", "String")
    of("mathlib.Core.Path " math "Path" prelude, "◌≡◌ refl sym ◌∙◌ ap")
    of("mathlib.Core.Bool " math "Bool" prelude, "Bool true false not ◌&&◌ ◌||◌ cond")
    of("mathlib.Core.List" prelude, "List [] ◌∷◌ ◌++◌ map reverse Memᴰ")
    of("mathlib.Core.Logic " math "Logic" prelude, "◌⊎◌ ◌↔◌ ◌≢◌ inl inr ⊎_elim")
    of("lib.ListN " math "ListN" prelude, "length get_or take drop set replicate")
    of("lib.ListN " math "ListN Rattle.std.proofs.Common" lemmas, "length-append length-drop length-replicate length-set get_or-append get_or-eq_default")
    of("lib.Seq " math "Seq Rattle.std.proofs.Common" lemmas, "drop-append-le ext_get_or get_or-set_other get_or-set_same take-append-le")
    of("lib.Seq " math "Seq Rattle.std.proofs.lemmas.List.Edits", "sets")
    of("lib.Dec " math "Dec" prelude, "T eqb ltb leb lit< lit≤")
    of("lib.Bits Rattle.std.specs.Int.Bits" prelude, "bit_or bit_and bit_xor")
    of("native.Mathlib.Decide " math "Decide", "dec_le dec_lt ℕ_discrete")
    of("native.Mathlib.Omega Rattle.std.proofs.Common", "arith")
    of("borrow.Author.Tests Rattle.std.proofs.Common", "le-ltb lt-ltb")
    of(substr(prelude, 2), "ℤ negsuc ◌+ℤ◌ ◌-ℤ◌ ◌*ℤ◌ neg_ℤ nat_abs ◌≤ℤ◌ ◌<ℤ◌ ◌==◌ if◌then◌else◌ ⊤ IsTrue IsFalse nat_eq nat_lt nat_le" \
        " is_some is_none SomeIff IsSomeAnd IfSome IfNone OnSome IsSome IsNone is_ok is_err OkIff IsOkAnd IsErrAnd IfOk IfErr OnOk OnErr IsOkUnless" \
        " IsOk IsErr IsErrOf MatchOption MatchResult MatchBool Option slice_get slice_index slice_index_or slice_set slice_range EachIndex" \
        " SomeIndex All Any Contains AllPairs HoldsAt sum sum_by count_by count_ones unsigned_abs int_lt int_le int_div int_rem FitsSigned IsBitSet" \
        " IsPermutation IsSorted IsSortedBy IsSortedByKey")
    of(substr(prelude, 2) " Rattle.core.specs.declared.option.Option.TheVariants Rattle.core.specs.declared.result.Result.TheVariants", "Some Ok Err")
    of("Rattle.std.specs.Io.KnownBytes", "Appends Consumes IsAtEnd")
    home["[]ˢ"] = "Prim.Native.String.[]"
    home["◌∷ˢ◌"] = "Prim.Native.String.◌∷◌"
    at_home["Prim.Native.String.[]"] = "[]ˢ"
    at_home["Prim.Native.String.◌∷◌"] = "◌∷ˢ◌"
    for (name in home) looks[drawn(name)] = name
    # a pattern has these, and binds them where they are not imported
    each("zero suc true false [] []ˢ inl inr yes no negsuc Some Ok Err Memᴰ.head Memᴰ.tail", constructor)
    # variables of the sources have these names too: only their import is held to the list
    each("map code no sum T", variable)
    each("Prim Rattle mathlib lib native denote borrow mir", library)
    each("axiom Axiom lem postulate sorry admit trusted unsafe", no_proof)
    # they bring, bind or join names in ways that are not read here
    each("open mutual infix infixl infixr do package pattern syntax", unread)
    each("data record deriving module where use mod pub package using open as unfoldable abbrev axiom unfold unfolding ruleset mutual" \
        " infix infixl infixr elim let in do pattern", reserved)
    # what else than ASCII the sources are written in
    signs = "→|←|↔|↦|⇒|×|≡|≢|≤|∷|∙|⊥|⊤|⊎|∪|∈|∧|□|◌|λ|κ|ℕ|ᴰ|ˢ|₀|₁|₂|₃|⟨|⟩|«|»"
    plain = "^([A-Za-z0-9]([A-Za-z0-9-]|_[A-Za-z0-9]|\047|₀|₁|₂|₃)*|_|κs)$"
}
# A name with one letter for all that are drawn alike, and no other way to join its words.
function drawn(name) { gsub(/[I1]/, "l", name); gsub(/O/, "0", name); gsub(/_/, "-", name); return name }

function other_meaning(k, name) { fault(place[k], "gives `" name "`, which is " home[name] ", another meaning") }
function is_library(k, name) { fault(place[k], "`" name "` is a library, and the name of nothing else") }

# The name at k is bound, or declared by the `:` at `colon`, and hides what the file imports or declares for others. In a proof it may. In a
# pattern it may be a constructor: that is known when all files are read.
function hides(k, colon, how,    words) {
    if (!stated || !(token[k] in known) || known[token[k]] == colon || token[k] in variable) return
    words = "`" token[k] "` hides what the file calls so"
    if (how == "pattern") matched[file ":" place[k] ": " words] = token[k]
    else fault(place[k], words)
}

# The name at k is declared or bound.
function binds(k,    name) {
    name = token[k]
    if (name in home) { if (!(name in variable)) other_meaning(k, name) }
    else if (name in library) is_library(k, name)
    else if (name !~ plain || name ~ /^(.-.|[0-9][0-9lIO]*)$/) fault(place[k], "`" name "` is declared or bound, and is no word")
    else if (drawn(name) in looks) fault(place[k], "`" name "` looks like `" looks[drawn(name)] "`")
}
# What stands from one place to before another is so. In a "pattern" there are constructors too, and a "field" hides nothing.
function bind_all(from, to, how,    k) {
    for (k = from; k < to; k++) {
        if (opens(k) && has_colon(k)) k = partner[k]
        else if (token[k] in reserved || token[k] ~ /^([({[]|[])}]|[,;=.]|[0-9]+|0x[0-9A-Fa-f]+)$/) continue
        else if (how == "pattern" && (token[k] ~ /^(∷|∷ˢ|→)$/ || dot[k + 1] == "path" || is_constructor(k))) continue
        else {
            binds(k)
            if (how != "field" && !(how == "pattern" && (k == from || dot[k - 1] == "path"))) hides(k, to, how)
        }
    }
}
function is_constructor(k) { return token[k] in constructor && (token[k] in known || home[token[k]] ~ /^Prim[.][a-z]*$/) }
function has_colon(k,    j) {
    for (j = k + 1; j < partner[k]; j++) {
        if (token[j] == ":") return 1
        if (opens(j)) j = partner[j]
    }
    return 0
}

# Where declarations and clauses begin: at the lines that are no further in than the block's first. `where` opens a block.
function find_starts(    k, n, block) {
    split("", starts)
    block[n = 0] = 0
    for (k = 1; k <= count; k++) {
        if (outer[k] || closes(k)) continue
        while (n && first[k] && margin[k] < block[n]) n--
        if (token[k - 1] == "where" && margin[k] > block[n]) block[++n] = margin[k]
        starts[k] = token[k - 1] == "where" || first[k] && margin[k] <= block[n]
    }
}

# Where the left side of the `:` or `=` at k begins; `typed` where it has a `:` itself.
function left_side(k,    j) {
    typed = 0
    for (j = k - 1; j > outer[k]; j--) {
        if (token[j] ~ /^(;|,|let|where|in|=|↦|\|)$/) return j + 1
        if (token[j] == ":") typed = 1
        if (closes(j)) j = partner[j]
        if (starts[j] && !outer[k]) return j
    }
    return outer[k] + 1
}

# What the word at k binds: `:` and `=` what stands before them, λ what stands up to the dot, ↦ the pattern before it, `as` the next name, and a
# dot the name before it.
function binders(k,    from, to) {
    if (token[k] == ":") bind_all(left_side(k), k, k in field ? "field" : "")
    else if (token[k] == "=") {
        from = left_side(k)
        if (!typed) bind_all(from, k, outer[k] && token[from - 1] != "let" ? "field" : token[from - 1] == "let" ? "" : "pattern")
    } else if (token[k] == "λ") {
        for (to = k + 1; to <= count && token[to] != "."; to++) if (opens(to)) to = partner[to]
        bind_all(k + 1, to, "")
    } else if (token[k] == "↦") {
        for (from = k - 1; from > outer[k] && token[from] != "|"; from--) if (closes(from)) from = partner[from]
        bind_all(from + 1, k, "pattern")
    } else if (token[k] == "as") { if (!opens(k + 1)) binds(k + 1) }
    else if (dot[k] == "end" && token[k - 1] in home) binds(k - 1)
}

# What a `use` brings, from k on; the place after it. `item` in braces, and else a module.
function use_item(k, path, item,    name) {
    for (; k <= count; k++) {
        if (token[k] == "{") {
            for (k++; k <= count && token[k] != "}"; ) { k = use_item(k, path, 1); if (token[k] == ",") k++ }
            return k + 1
        }
        name = token[k]
        path = path == "" ? name : path "." name
        if (token[++k] != ".") break
    }
    if (token[k] != "as") { imported(k - 1, path, name, item); return k }
    imported(k + 1, path, token[k + 1], item)
    if (!(token[k + 1] in home)) binds(k + 1)
    if (item) renamed[file ":" place[k] ": brings another thing under the name `" token[k + 1] "`"] = token[k + 1]
    return k + 2
}
function imported(k, path, name, item) {
    if (name == "*" || rattle && !item) fault(place[k], "a `use` that does not name each thing that it brings")
    if (name in home) { if (at_home[path] != name) other_meaning(k, name) }
    else if (item && name ~ /◌/) fault(place[k], "`" name "` is an operator that the sources do not use")
    if (name in library) is_library(k, name)
    if (item) known[name] = 0
    if (item && (path !~ /^Rattle[.]/ || path ~ /^Rattle[.](core|std(_[a-z]+)?)[.]/)) of_library[name] = 1
    if (path ~ /[.]TheVariants[.]/ || item && name in of_library) made_by[name] = 1
}

# A word of antt that is wrong wherever it stands, and one that is wrong in a term: a name of the list is no field and no part of a path.
function any_word(k,    name) {
    name = token[k]
    if (name in no_proof) fault(place[k], "`" name "` is no proof")
    if (name in unread && dot[k - 1] != "path") fault(place[k], "`" name "` is a form that the sources do not use")
    if (name !~ /«|»/) return
    gsub(/^«|»$/, "", name)
    if (!(name in reserved)) fault(place[k], token[k] " is quoted without need")
}
function path_to(k,    path) {
    for (path = token[k]; dot[k - 1] == "path" && token[k - 2] !~ /^[])}]$/; k -= 2) path = token[k - 2] "." path
    return path
}
function term_word(k,    path) {
    if (!(token[k] in home) || token[k] in variable) return
    # what Rattle makes of the two ways of an `if`
    if (token[k] ~ /^(true|false)$/ && dot[k - 1] == "path" && token[k - 2] ~ /^[a-z]/) return
    if (token[k] == "Memᴰ" && token[k + 2] ~ /^(head|tail|not-nil|append_(cases|left|right)|eq_of_singleton)$/) return
    if (dot[k + 1] != "path" && dot[k - 1] !~ /^(field|path)$/) return
    path = path_to(k)
    if (!(path in module) && at_home[path] != token[k]) other_meaning(k, token[k])
}

# What the signature with its `:` at k declares. What stands below a `record` or `data` is a field or a constructor.
function declares(k,    from, public, shown) {
    from = left_side(k)
    if (token[from - 1] == "let") return
    if (margin[from] <= within) within = 999
    if (within < 999) field[k] = 1
    for (; from < k && !opens(from); from++) {
        if (token[from] ~ /^(data|record)$/) { within = margin[from]; of_data = token[from] == "data" }
        if (token[from] == "pub") public = 1
        if (token[from] ~ /^(abbrev|unfoldable)$/) shown = 1
        if (token[from] in reserved) continue
        declared[token[from]] = 1
        if (shown) unfolds[token[from]] = 1
        if (k in field && of_data) made_by[token[from]] = made_here[token[from]] = 1
        if (public && !(k in field)) known[token[from]] = k
    }
}

# The file declares the name for others.
function is_open(name) { return name in known && known[name] }

# Whether the declaration or clause that begins at k is part of what is stated: a signature, or a definition that others may unfold, with its
# helpers. A proof is none, and its helpers are none.
function is_stated(k,    j) {
    if (margin[k] > owner) return stated
    owner = 999
    for (j = k; j <= count && (j == k || !starts[j]); j++) {
        if (outer[j] || token[j] !~ /^[:=]$/) continue
        if (token[j] == "=") owner = margin[k]
        return token[j] == ":" || token[k] in unfolds
    }
    return 1
}

function antt_file(    k) {
    split("", known)
    split("", of_library)
    split("", made_here)
    split("", field)
    split("", unfolds)
    within = owner = 999
    find_starts()
    for (k = 1; k <= count; k++) {
        any_word(k)
        if (token[k] == ":" && !outer[k]) declares(k)
    }
    for (k = 1; k <= count; ) {
        if (token[k] == "use") k = use_item(k + 1, "", 0)
        else if (token[k] == "mod") {
            if (token[++k] in library) is_library(k, token[k])
            else if (token[k] !~ /^[A-Za-z0-9_+]+$/) fault(place[k], "`" token[k] "` is declared or bound, and is no word")
            k++
        } else {
            if (starts[k]) stated = is_stated(k)
            term_word(k)
            binders(k++)
        }
    }
    claims()
}

# Nothing is renamed to what some file declares. What a public `ensures` cites uses what it is given, and what it claims does in each case.
function across_files(    at) {
    for (at in matched) if (!(matched[at] in made_by)) { print at; bad = 1 }
    print_where(renamed, declared)
    print_where(idle, cited)
    print_where(idle_clause, claimed)
}
function print_where(faults, names,    at) { for (at in faults) if (faults[at] in names) { print at; bad = 1 } }
