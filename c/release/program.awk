# Writes the first program in C of a page, with a `main`, to the file `to`.c, and the block after it, which is what it prints, to `to`.out.
/^```/ && inside { inside = 0; if (block ~ /int main\(/ && kind == "c") is_next = 1; else if (done == 1) exit; next }
/^```/ {
    inside = 1
    kind = substr($0, 4)
    block = ""
    if (is_next) { printf "%s", program > (to ".c"); done = 1; is_next = 0 }
    next
}
inside { block = block $0 "\n"; if (done) printf "%s\n", $0 > (to ".out"); else program = block }
