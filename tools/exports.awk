# Reads src/*.rt of `host_replies`, `host_tokens`, `host_spaces` and `host` and prints what a program that links the archive declares, one
# declaration a line.
# form=c: the structs and functions as include/stonespry.h has them. form=rust: the functions as an extern block has them.
# form=layout: C lines that compile only where each struct has the size and the offsets that repr(C) gives it.
# A result of more than 16 bytes is a first parameter `out` (tools/native says why), a slice a pointer and a length.
BEGIN {
    split("u8 uint8_t 1 u16 uint16_t 2 u32 uint32_t 4 u64 uint64_t 8 usize size_t 8 bool bool 1", t, " ")
    for (i = 1; i in t; i += 3) { c_name[t[i]] = t[i + 1]; size[t[i]] = t[i + 2] }
}

function c_type(name) { return name in c_name ? c_name[name] : "Stonespry" name }

# ---- structs

/^#\[repr\(C\)\]$/ { shared = 1; next }
shared && /^pub struct / { struct = $3; fields = ""; end = 0; most = 1; shared = 0; next }
struct && /^}/ {
    size[struct] = round(end, most)
    if (form == "c") print "typedef struct {" fields " } Stonespry" struct
    if (form == "layout") print holds("sizeof(Stonespry" struct ") == " size[struct])
    struct = ""
}
struct {
    name = $2; sub(/:$/, "", name)
    type = $3; sub(/,$/, "", type)
    end = round(end, size[type])
    if (form == "layout") print holds("offsetof(Stonespry" struct ", " name ") == " end)
    end += size[type]
    if (size[type] > most) most = size[type]
    fields = fields " " c_type(type) " " name ";"
}

function round(n, to) { return int((n + to - 1) / to) * to }
function holds(test) { return "typedef char holds_" ++asserts "[" test " ? 1 : -1];" }

# ---- functions; a signature ends with its result. Structs may stand in a later file, so functions are printed at the end.

/^pub extern "C" fn / { signature = ""; inside = 1 }
inside {
    signature = signature $0
    if (/\) -> [A-Za-z0-9]+$/) { exported[++count] = signature; inside = 0 }
}

function parameter(name, type, element) {
    if (type !~ /^&/) return form == "c" ? c_type(type) " " name : name ": " type
    element = type; gsub(/^&(mut )?\[|\]$/, "", element)
    if (form == "c") return (type ~ /mut/ ? "" : "const ") c_type(element) " *" name ", size_t " name "_len"
    return name ": *" (type ~ /mut/ ? "mut " : "const ") element ", " name "_len: usize"
}

function declared(signature, name, result, words, list, n, i) {
    name = signature; sub(/^pub extern "C" fn /, "", name); sub(/\(.*/, "", name)
    result = signature; sub(/.* /, "", result)
    words = signature; sub(/^[^(]*\( */, "", words); sub(/,? *\) -> .*/, "", words)
    list = size[result] > 16 ? (form == "c" ? c_type(result) " *out" : "out: *mut " result) : ""
    n = split(words, part, /, */)
    for (i = 1; i <= n; i++) {
        split(part[i], of, ": ")
        list = list (list == "" ? "" : ", ") parameter(of[1], of[2])
    }
    if (form == "c") return (size[result] > 16 ? "void" : c_type(result)) " " name "(" (list == "" ? "void" : list) ")"
    return "fn " name "(" list ")" (size[result] > 16 ? "" : " -> " result)
}

END { if (form != "layout") for (k = 1; k <= count; k++) print declared(exported[k]) }
