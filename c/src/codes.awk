# Writes functions over the codes of a header: name_of, which is "BadSlot" of DERRIMAS_BAD_SLOT, and sentence_of, which is the comment beside that.
/^typedef enum derrimas_(finalizers_)?code/ {
    inside = 1
    type = $3
    prefix = toupper(type)
    sub(/CODE$/, "", prefix)
}
/^} derrimas_/ { inside = 0 }
inside && match($0, prefix "[A-Z_]+ = ") {
    constant = substr($0, RSTART, RLENGTH - 3)
    sentence = $0
    sub(/^.*\/\* /, "", sentence)
    sub(/ \*\/.*$/, "", sentence)
    count = split(substr(constant, length(prefix) + 1), words, "_")
    name = ""
    for (n = 1; n <= count; n++)
        name = name substr(words[n], 1, 1) tolower(substr(words[n], 2))
    names = names of(constant, name)
    sentences = sentences of(constant, sentence)
}
END {
    header = FILENAME
    sub(/^.*\//, "", header)
    write("name_of", names, "?")
    write("sentence_of", sentences, "no code of " header)
}
function of(constant, text) { return sprintf("    case %s: return \"%s\";\n", constant, text) }
function write(call, cases, other) {
    printf "static const char *%s(%s code)\n{\n    switch (code) {\n%s    default: return \"%s\";\n    }\n}\n", call, type, cases, other
}
