# A program's listing from its bytes as numbers (`od -An -v -tu1`), written from document 01, 'The program', document 02's wish 8 and the words of the
# listing's definition: a second source for what `program_listing` prints.
{ for (i = 1; i <= NF; i++) b[n++] = $i }

function word(at) { return b[at] * 256 + b[at + 1] }
function signed(k) { return k < 32768 ? k : k - 65536 }

function words(op, a, k) {
    if (op == 0) return "sleep"
    if (op == 1) return "set variable " a ": " signed(k)
    if (op == 2) return "add variable " a ": " signed(k)
    if (op == 3) return "done"
    if (op == 4) return "send channel " a
    if (op == 5) return "listen pairs " a
    if (op == 6) return "pair channel " a " location " k
    if (op == 7) return "age clock " a
    if (op == 8) return "zero clock " a
    if (op == 9) return "enter location " k
    if (op == 10) return "trial"
    if (op == 11) return "low clock " a ": " k
    if (op == 12) return "high clock " a ": " k
    if (op == 13) return "data low variable " a ": " signed(k)
    if (op == 14) return "data high variable " a ": " signed(k)
    if (op == 15) return "keep edge " k
    if (op == 16) return "take"
    if (op == 17) return "choose"
    if (op == 18) return "budget " k
    return "no statement"
}

function block(part, number, blocks, code, statements,    from, to, place, at) {
    from = word(part + 6 + 2 * number)
    to = number + 1 < blocks ? word(part + 8 + 2 * number) : statements
    if (number < b[part + 2]) printf "  location %d, from statement %d\n", number, from
    else printf "  edge %d, from statement %d\n", number - b[part + 2], from
    if (to <= from) print "      no statement: the block ends where it starts, or before"
    for (place = from; place < to; place++) {
        if (place >= statements) {
            print "      the rest of the block lies outside the node's part"
            return
        }
        at = code + 4 * place
        printf "%6d %02x%02x%02x%02x %s\n", place, b[at], b[at + 1], b[at + 2], b[at + 3], words(b[at], b[at + 1], word(at + 2))
    }
}

function node(number, part, long,    blocks, code, i) {
    if (long < 6) {
        printf "node %d: its part lies outside the bytes, or has fewer than 6\n", number
        return
    }
    printf "node %d: length %d, locations %d, edges %d, initial location %d\n", number, long, b[part + 2], b[part + 3], b[part + 4]
    blocks = b[part + 2] + b[part + 3]
    if (long < 6 + 2 * blocks) {
        print "  the starts of its blocks lie outside its part"
        return
    }
    code = part + 6 + 2 * blocks
    for (i = 0; i < blocks; i++) block(part, i, blocks, code, int((part + long - code) / 4))
    if ((part + long - code) % 4) printf "  bytes behind the last whole statement: %d\n", (part + long - code) % 4
}

END {
    if (n < 6) {
        print "the header lies outside the bytes"
        exit
    }
    printf "version %d, length %d, nodes %d, horizon %d\n", b[0], word(1), b[3], word(4)
    if (word(1) != n) printf "the length is not that of the bytes read: %d\n", n
    at = 6
    for (number = 0; number < b[3]; number++) {
        # A length that runs out of the bytes leaves this node and those behind it without a part.
        long = at + 2 <= n ? word(at) : 0
        if (at + 2 > n || at + long > n) at = n
        else {
            node(number, at, long)
            at += long
            continue
        }
        node(number, 0, 0)
    }
}
