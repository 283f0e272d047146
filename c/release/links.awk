# Writes a page in which a link that leads to no file is its text alone. `folder` is the page's. Blocks of code stay as they are.
function is_there(path) {
    sub(/#.*/, "", path)
    return path == "" || path ~ /^https?:/ || system("[ -e '" folder "/" path "' ]") == 0
}
function flush(    link, middle, target) {
    while (match(text, /\[[^][]*\]\([^()]*\)/)) {
        link = substr(text, RSTART, RLENGTH)
        middle = index(link, "](")
        target = substr(link, middle + 2, length(link) - middle - 2)
        printf "%s%s", substr(text, 1, RSTART - 1), is_there(target) ? link : substr(link, 2, middle - 2)
        text = substr(text, RSTART + RLENGTH)
    }
    printf "%s", text
    text = ""
}
/^ *```/ { flush(); in_code = !in_code; print; next }
in_code { print; next }
{ text = text $0 "\n" }
END { flush() }
