# Reads each file of Rattle (.rt) and of antt (.antt) into words and signs, and hands it to rattle_file() or antt_file(). In a file of Rattle the
# clauses and the `ghost use` items are antt.
#
#     token[k]      the k-th word or sign; a string is `"`
#     part[k]       what it stands in: "antt", or in a file of Rattle "clause", "use" or ""
#     place[k]      its line
#     margin[k]     the spaces before its line's first word, and first[k] whether it is that word
#     partner[k]    of a bracket, the other one
#     outer[k]      the bracket that it stands in, or 0
#     remark[k]     a comment stands right after it
#     dot[k]        of a dot in antt: "end" where a space follows, as after binders; "field" where one stands before it; else "path", also of a field
function fault(line, words) { print file ":" line ": " words; bad = 1 }

function add(word, kind) {
    token[++count] = word
    dot[count] = kind
    part[count] = rattle ? mode : "antt"
    place[count] = FNR
    margin[count] = spaces
    first[count] = fresh
    fresh = partner[count] = 0
    outer[count] = opened ? open[opened] : 0
    if (word ~ /^[({[]$/) open[++opened] = count
    else if (word ~ /^[])}]$/ && opened) {
        partner[count] = open[opened]
        partner[open[opened]] = count
        outer[count] = outer[open[opened--]]
    }
}
function opens(k) { return token[k] ~ /^[({[]$/ && partner[k] }
function closes(k) { return token[k] ~ /^[])}]$/ && partner[k] }

# A line of antt without its strings and its comment. A comment begins where a word could.
function bare(text,    kept) {
    kept = ""
    while (match(text, /"|(^|[ (){}.;,@])--/)) {
        if (substr(text, RSTART, 1) != "\"") return kept substr(text, 1, RSTART - (substr(text, RSTART, 1) == "-"))
        kept = kept substr(text, 1, RSTART - 1) " \" "
        text = substr(text, RSTART)
        if (!match(text, /^"([^"\\]|\\.)*"/)) { fault(FNR, "a string that does not end on its line"); return kept }
        text = substr(text, RLENGTH + 1)
    }
    return kept text
}
function antt_line(text,    n, k, list) {
    text = bare(text)
    if (text ~ /[{]-/) fault(FNR, "a comment that does not end with its line")
    gsub(/[.]( |$)/, " \001 ", text)
    gsub(/(^| )[.]/, " \002 ", text)
    gsub(/[(){}.;,@]/, " & ", text)
    n = split(text, list, " ")
    for (k = 1; k <= n; k++) {
        if (list[k] == "\001") add(".", "end")
        else if (list[k] == "\002") add(".", "field")
        else add(list[k], list[k] == "." ? "path" : "")
    }
}

# A line of Rattle word by word. Each of these takes the word at the start of a text, and gives what is left of it.
function rattle_line(text) {
    while (match(text, /[^ ]/)) {
        gap = RSTART > 1
        text = mode == "" ? rattle_word(substr(text, RSTART)) : antt_word(substr(text, RSTART))
    }
}
function rattle_word(text) {
    if (text ~ /^\/\//) { remark[count] = 1; return "" }
    if (text ~ /^\/[*]/) { fault(FNR, "a comment that does not end with its line"); return "" }
    if (text ~ /^b?r#*"/) { fault(FNR, "a raw string"); return "" }
    if (match(text, /^b?\047([^\047\\]|\\.|\\x..)\047/)) { add("0"); return substr(text, RLENGTH + 1) }
    if (text ~ /^"/) {
        add("\"")
        if (match(text, /^"([^"\\]|\\.)*"/)) return substr(text, RLENGTH + 1)
        fault(FNR, "a string that does not end on its line")
        return ""
    }
    match(text, /^([A-Za-z_0-9]+|.)/)
    add(substr(text, 1, RLENGTH))
    if (token[count] == "use" && token[count - 1] == "ghost") mode = "use"
    if (token[count] == "{" && clause_word_before(count)) { mode = "clause"; clause_at = count }
    return substr(text, RLENGTH + 1)
}
# The `requires` or `ensures` whose bracket stands at k, or 0. Between them there may be a `*` and a name.
function clause_word_before(k) {
    if (token[--k] ~ /^[A-Za-z_0-9]+$/ && token[k - 1] ~ /^(requires|ensures|[*])$/) k--
    if (token[k] == "*") k--
    return token[k] ~ /^(requires|ensures)$/ ? k : 0
}
function antt_word(text) {
    if (text ~ /^([{]-|--|[^ (){}.;,@"]*\/[\/*])/) fault(FNR, "a comment in a clause or a `ghost use`")
    if (text ~ /^"/) fault(FNR, "a string in a clause")
    match(text, /^([(){}.;,@"]|[^ (){}.;,@"]+)/)
    add(substr(text, 1, RLENGTH), text !~ /^[.]/ ? "" : text ~ /^[.]( |$)/ ? "end" : gap ? "field" : "path")
    if (mode == "use" ? token[count] == ";" : closes(count) && partner[count] == clause_at) mode = ""
    return substr(text, RLENGTH + 1)
}

function whole_file() {
    if (file ~ /\.rt$/) rattle_file()
    else if (file != "") antt_file()
    count = opened = 0
    mode = ""
    split("", token)
    split("", dot)
    split("", remark)
}
FNR == 1 { whole_file(); file = FILENAME; rattle = file ~ /\.rt$/ }
/[^ -~]/ {
    strange = $0
    gsub(signs, "", strange)
    if (strange ~ /[^ -~]/) fault(FNR, "a letter or sign that the sources do not use")
}
{
    fresh = 1
    match($0, /^ */)
    spaces = RLENGTH
    if (rattle) rattle_line($0); else antt_line($0)
}
END { whole_file(); across_files(); all_exported(); exit bad }
