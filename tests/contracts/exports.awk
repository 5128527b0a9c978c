# The exported functions and the C header that hosts are compiled with, `header`. It declares each `extern "C" fn` once, with the same parameters, of the
# same width and in the same order, and no other function. A lent list of bytes is a pointer and, named after it with `_len`, its length.
BEGIN {
    c_type["u8"] = "uint8_t"
    c_type["u16"] = "uint16_t"
    c_type["u32"] = "uint32_t"
    c_type["u64"] = "uint64_t"
    if (header != "") read_header()
}
function of_header(words) { print header ": " words; bad = 1 }

# in_header[name] is a declaration, with one space for each gap. What is `static` has its body there, and is none.
function read_header(    line, text, list, n) {
    while ((getline line < header) > 0) text = text header_line(line)
    close(header)
    gsub(/\/[*]([^*]|[*]+[^*\/])*[*]+\//, "", text)
    while (gsub(/[{][^{}]*[}]/, ";", text)) continue
    gsub(/ +/, " ", text)
    for (n = split(text, list, ";"); n; n--) if (list[n] !~ /^ static / && list[n] ~ /\(/) declaration(substr(list[n], 2))
}
# A line that the compiler reads as it stands. Of the preprocessor's lines there are these alone, and they leave no line out but what C++ needs.
function header_line(line) {
    if (line ~ /\\$/) of_header("a line that goes on: " line)
    if (line ~ /^#(ifndef|define) PAXOS_COMMIT_H$/ || line ~ /^#include <[a-z]+[.]h>$/ || line ~ /^#define PAXOS_COMMIT_[A-Z_]+(\([a-z, ]+\))? /) return ""
    if (line == "#ifdef __cplusplus" || line == "#endif") { for_cpp = line != "#endif"; return "" }
    if (line ~ /^ *(#|%:|[?][?]=)/ || for_cpp && line !~ /^(extern "C" [{]|[}])$/) of_header("hides what is declared: " line)
    return for_cpp ? "" : " " line
}
function declaration(text,    name) {
    name = text
    sub(/ ?\(.*/, "", name)
    sub(/.*[ *]/, "", name)
    if (name in in_header) of_header("declares " name " twice")
    in_header[name] = text
}

# The declaration of the function with its `fn` at k and its parameters in the brackets at `from`; `?` is what C has no type for here.
function in_c(k, from,    text, at, name) {
    for (at = from + 1; at < partner[from]; at++) {
        name = token[at]
        at += 2
        text = text (token[at] != "&" ? type_in_c(at) " " name : token[at + 1] == "mut" ? list_in_c(at + 2, name) : "const " list_in_c(at + 1, name))
        while (at < partner[from] && token[at] != ",") at = opens(at) ? partner[at] + 1 : at + 1
        if (at + 1 < partner[from]) text = text ", "
    }
    at = partner[from] + 1
    return (token[at] token[at + 1] == "->" ? type_in_c(at + 2) : "void") " " token[k + 1] "(" text ")"
}
function type_in_c(at) { return token[at] in c_type ? c_type[token[at]] : "?" }
function list_in_c(at, name) { return (token[at] token[at + 1] token[at + 2] == "[u8]" ? "uint8_t *" : "? *") name ", size_t " name "_len" }

function exported(k, from,    name) {
    name = token[k + 1]
    if (name in exports) fault(place[k], name " is exported twice")
    exports[name] = 1
    if (!(name in in_header)) fault(place[k], "the C header does not declare " name)
    else if (in_header[name] != in_c(k, from)) fault(place[k], "the C header declares `" in_header[name] "`, and this is `" in_c(k, from) "`")
}
function all_exported(    name) { for (name in in_header) if (!(name in exports)) of_header("declares " name ", which is not exported") }
