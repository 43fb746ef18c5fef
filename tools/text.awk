# Makes the compiler's assembly of the library into the text that is kept: VERSION becomes part of every name, so that
# two versions can be linked into one program; a label is named after its function and not after the function's number,
# so that a small change of the code is a small change of the text; exported functions are hidden from other programs;
# and comments are left out, since SIGN, `#` for one of the two, would be a directive to a C preprocessor.
#
# usage: awk -v version=0_1_0 -v sign=SIGN -f text.awk FILE.s FILE.s       the same file, read twice

# An exported function keeps its name, and the version follows. Others are `a::b`.
function named(name) {
    if (name in exported) return name "_" version
    gsub(/::/, ".", name)
    gsub(/[^A-Za-z0-9_.]/, "_", name)
    return "rekusoyen_" version "." name
}

# `.LBB3_7` is block 7 of function 3; constants, jump tables and ends are named in the same way.
function label(name,    kind, number, rest) {
    if (!match(name, /^\.L(BB|CPI|JTI|func_end)[0-9]+/)) return ".L" named(substr(name, 3))
    rest = substr(name, RLENGTH + 1)
    number = kind = substr(name, 3, RLENGTH - 2)
    gsub(/[A-Za-z_]/, "", number)
    gsub(/[0-9]/, "", kind)
    sub(/^_/, "", rest)
    return ".L" named(numbered[number]) "." (kind == "BB" ? "" : kind) rest
}

function renamed(word) {
    if (word in exported || word in own) return named(word)
    if (word ~ /^\.L/) return label(word)
    if ($1 == ".section" && word !~ /^\.rodata\.cst/ && match(word, /^\.(text|rodata)\./))
        return substr(word, 1, RLENGTH) renamed(substr(word, RLENGTH + 1))
    return word
}

# A line is cut into names, with and without quotes, and what is between them.
function changed(line,    out, word, length_of) {
    out = ""
    while (line != "" && index(line, sign) != 1) {
        if (match(line, /^"[^"]*"/)) {
            length_of = RLENGTH
            word = substr(line, 2, length_of - 2)
            # flags of a section have quotes, too
            out = out (renamed(word) == word ? "\"" word "\"" : renamed(word))
        } else if (match(line, /^[A-Za-z0-9_.$]+/)) {
            length_of = RLENGTH
            out = out renamed(substr(line, 1, length_of))
        } else {
            length_of = 1
            out = out substr(line, 1, 1)
        }
        line = substr(line, length_of + 1)
    }
    sub(/[ \t]+$/, "", out)
    return out
}

FNR == NR && $1 == ".globl" { exported[$2] = 1 }
FNR == NR && $1 == ".type" {
    name = $2
    sub(/,[^,]*$/, "", name)
    gsub(/"/, "", name)
    if (name !~ /^\.L/) own[name] = 1
}
FNR == NR && $1 == ".size" && match($0, /\.Lfunc_end[0-9]+/) {
    name = $2
    gsub(/[",]/, "", name)
    numbered[substr($0, RSTART + 10, RLENGTH - 10)] = name
}
FNR == NR { next }
# once, at the end, and what names the compiler
$1 == ".file" || $1 == ".ident" || $1 == ".addrsig" || /\.note\.GNU-stack/ { next }
$1 == ".ascii" || $1 == ".asciz" { print; next }
{
    line = changed($0)
    if (line ~ /[^ \t]/) print line
    if ($1 == ".globl") print "\t.hidden\t" named($2)
}
END { printf "\t.section\t.note.GNU-stack,\"\",%%progbits\n\t.text\n" }
