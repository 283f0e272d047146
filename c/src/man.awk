# Writes NAME.h as a manual page about `what`: its comments as text, its declarations as they stand, and a section for each line of `/* ---- TITLE`. In `folder`
# it writes a page for each call too: the comment before it, and all that is declared behind that.
function plain(text) { gsub(/\\/, "\\e", text); gsub(/-/, "\\-", text); if (text ~ /^[.']/) text = "\\&" text; return text }
function code(on) { if (on != in_code) print on ? ".PP\n.nf" : ".fi"; in_code = on }
function head(of) { return ".TH " toupper(of) " 3 \"\" \"derrimas " version "\" \"Library calls\"\n.SH NAME\n" of " \\- " }
function say(text) { print text; said = said text "\n" }
function first(text,    end) { # up to the first full stop that a space or the end follows
    gsub(/(^|\n)\.(PP|br|IP [^\n]*)(\n|$)/, " ", text)
    gsub(/\n+/, " ", text)
    sub(/^ +/, "", text)
    end = match(text, /[^.]\.( |$)/)
    return end ? substr(text, 1, end) : text
}
function pages(    rest, of) { # of each call of the declarations that have ended
    rest = bare
    while (folder && declared !~ /^typedef/ && match(rest, /derrimas_[a-z_0-9]+\(/)) {
        of = substr(rest, RSTART, RLENGTH - 1)
        rest = substr(rest, RSTART + RLENGTH)
        printf "%s%s\n.SH SYNOPSIS\n.nf\n#include <%s.h>\n\n%s.fi\n.SH DESCRIPTION\n%s.SH SEE ALSO\n.BR %s (3)\n", \
            head(of), first(said), name, shown, said, name > (folder "/" of ".3")
        close(folder "/" of ".3")
    }
    bare = shown = declared = ""
}
BEGIN {
    printf "%s%s\n", head(name), what
    printf ".SH SYNOPSIS\n.nf\n#include <%s.h>\n\ncc program.c \\-lderrimas\n.fi\n.SH DESCRIPTION\n", name
    in_code = 0
}
/^#ifndef DERRIMAS_.*H$/ { begun = 1 }
/^\{$/ && !in_comment { in_body = 1; pages() }
in_body { in_body = !/^\}$/; next }
is_continued { is_continued = /\\$/; next }
/^#/ && !in_comment { is_continued = /\\$/; next }
/^extern "C" \{|^\}$/ && !in_comment { next }
/^\/\*/ && !in_comment {
    pages()
    code(0)
    in_comment = 1
    said = ""
    sub(/^\/\* ?/, "")
    print ".PP"
}
in_comment {
    is_last = /\*\//
    sub(/ ?\*\/.*$/, "")
    sub(/^ \* ?/, "")
    if (sub(/^---- /, "")) printf ".SH %s\n", toupper($0)
    else if ($0 ~ /^ *$/) say(".PP")
    else if (sub(/^- /, "")) say(".IP \\(bu 2\n" plain($0))
    else if ($0 ~ /^    /) say(".br\n" plain($0))
    else if (sub(/^  /, "")) say(plain($0))
    else say(plain($0))
    if (is_last) in_comment = 0
    next
}
begun && NF {
    code(1)
    print plain($0)
    if (!declared) declared = $0
    bare = bare $0 " "
    shown = shown plain($0) "\n"
}
begun && !NF { pages() }
END { code(0) }
