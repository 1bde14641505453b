#!/bin/sh
# Prints an input of the kind and size that the words name: see sizes.tsv. What the size counts is said with each kind.
set -u
kind=${1-} size=${2-}
case $size in
    '' | *[!0-9]*)
        echo "usage: sh tests/sizes.sh KIND SIZE" >&2
        exit 2
        ;;
esac
exec awk -v kind="$kind" -v n="$size" '
# The names prefix0, prefix1 and so on, each with a space before it.
function names(prefix,   i, s) {
    for (i = 0; i < n; i++) s = s " " prefix i
    return s
}

# Each number below n between these two texts.
function each(before, after,   i, s) {
    for (i = 0; i < n; i++) s = s before i after
    return s
}

# The same item n times.
function copies(item,   i, s) {
    for (i = 0; i < n; i++) s = s " " item
    return s
}

# The order in which each strand ends before the next one begins.
function chain(   i, s) {
    for (i = 0; i + 1 < n; i++) s = s " ((" i " 1) (" i + 1 " 0))"
    return " (precedes" s ")"
}

# A declaration of n texts.
function texts(prefix) { return "(" substr(names(prefix), 2) " text)" }

function protocol(roles) { print "(defprotocol p basic " roles ")" }
function role(name, vars, trace, unique) {
    return "(defrole " name " (vars " vars ") (trace " trace ")" (unique == "" ? "" : " (uniq-orig" unique ")") ")"
}
function problem(vars, items) { print "(defskeleton p (vars " vars ")" items ")" }

# A number from 0 to below k, the next of a sequence that the size begins.
function draw(k) {
    drawn = (drawn * 16807) % 2147483647
    return int(drawn / 2147483647 * k)
}

# A random term, of at most this depth; the nonces that it carries are noted.
function term(depth,   left, right, key) {
    if (depth == 0) {
        key = draw(6)
        if (key < 4) carried["n" key % 2]
        return key < 4 ? "n" key % 2 : "a" key - 4
    }
    left = term(depth - 1)
    right = term(depth - 1)
    key = draw(6)
    if (key < 2) return "(cat " left " " right ")"
    return "(enc " left " " right (key < 4 ? " (pubk a" : " (privk a") key % 2 "))"
}

# The text with these two names changed for each other.
function swapped(text, x, y) {
    gsub(x, "@", text)
    gsub(y, x, text)
    gsub("@", y, text)
    return text
}

# A random role, whose messages are of four forms that all roles have. The nonces that originate in it are unique.
function random_role(name,   i, j, form, flip, text, direction, first, trace, unique) {
    height[name] = 3 + draw(3)
    trace = "(recv (cat a0 a1))"
    for (i = 1; i < height[name]; i++) {
        direction = draw(2) ? "send" : "recv"
        form = draw(4)
        flip = draw(2)
        text = flip ? swapped(forms[form], "n0", "n1") : forms[form]
        for (j = 0; j < 2; j++) if ((form, flip ? 1 - j : j) in carries && !(j in first)) first[j] = direction
        trace = trace " (" direction " " (draw(2) ? swapped(text, "a0", "a1") : text) ")"
    }
    for (i = 0; i < 2; i++) if (first[i] == "send") unique = unique " n" i
    return role(name, "(a0 a1 name) (n0 n1 text)", trace, unique)
}

BEGIN {
    # Strands of one role in a chain, so that the order forbids to identify any two.
    if (kind == "ordered") {
        protocol(role("r", "(x text)", "(recv x) (send x)"))
        problem("(a text)", copies("(defstrand r 2 (x a))") chain())
    # Listeners in a chain.
    } else if (kind == "heard") {
        protocol(role("r", "(x text)", "(send x)"))
        problem("(a text)", copies("(deflistener a)") chain())
    # Strands of one role with different values.
    } else if (kind == "differ") {
        protocol(role("r", "(k akey)", "(send k)"))
        problem("(a name)", each("(defstrand r 1 (k (pubk \"", "\" a)))"))
    # Unique values.
    } else if (kind == "unique") {
        protocol(role("r", texts("x"), "(send (cat" names("x") "))"))
        for (i = 0; i < n; i++) s = s "(x" i " x" i ")"
        problem(texts("x"), " (defstrand r 1" s ") (uniq-orig" names("x") ")")
    # Keys that are kept.
    } else if (kind == "kept") {
        protocol(role("r", "(x text)", "(send x)"))
        problem("(x text) (" substr(names("k"), 2) " skey)", " (defstrand r 1 (x x)) (non-orig" names("k") ")")
    # Atoms that a strand received before it sent a value that is another strand'"'"'s own.
    } else if (kind == "stray") {
        protocol(role("s", "(y text)", "(send y)", " y") " " \
            role("r", texts("x") " (y text)", "(recv (cat" names("x") ")) (send y)"))
        problem("(y text)", " (defstrand s 1 (y y)) (defstrand r 2 (y y))")
    # Strands of different roles.
    } else if (kind == "roles") {
        protocol(each("(defrole r", "(vars(x text))(trace(send x)))"))
        problem("(a text)", each("(defstrand r", " 1(x a))"))
    # Variables of a role, each of which occurs in 200 problems.
    } else if (kind == "variables") {
        protocol(role("r", texts("x"), "(send (cat" names("x") "))"))
        for (i = 0; i < 200; i++) problem("(x text)", " (defstrand r 1 (x0 x))")
    # Variables of a role, of which one is used, and as many problems.
    } else if (kind == "unused") {
        protocol(role("r", texts("x"), "(send x0) (send (cat" names("x") "))"))
        for (i = 0; i < n; i++) problem("", " (defstrand r 1)")
    # Unique values of each of 50 strands, no two of which can be one.
    } else if (kind == "values") {
        protocol(role("r", "(k akey) " texts("x"), "(send (cat k" names("x") "))", names("x")))
        for (i = 0; i < 50; i++) s = s " (defstrand r 1 (k (pubk \"" i "\" a)))"
        problem("(a name)", s)
    # Positions at which a strand sends what a listener hears.
    } else if (kind == "positions") {
        protocol(role("r", texts("x"), "(send (cat" names("x") "))"))
        problem("(s text)", " (deflistener s) (pen-non-orig s)")
    # The same, where a strand of the problem may send it.
    } else if (kind == "contracted") {
        protocol(role("r", texts("x"), "(send (cat" names("x") "))"))
        problem("(s text)", " (defstrand r 1) (deflistener s) (pen-non-orig s)")
    # Encryptions of one value, which is heard, under keys that the penetrator may have learned.
    } else if (kind == "escapes") {
        protocol(role("r", "(s text) (a name)", "(send (cat " each("(enc s (pubk \"", "\" a))") "))"))
        problem("(s text) (a name)", " (defstrand r 1 (s s) (a a)) (deflistener s) (uniq-orig s) (pen-non-orig" \
            each("(privk \"", "\" a)") ")")
    # Customers whose orders a bank pays; it pays an order after an earlier one of the same customer.
    } else if (kind == "orders") {
        order = "(enc \"order\" c m o (privk c))"
        claim = "(enc \"claim\" c m o (privk m))"
        protocol(role("customer", "(c m b name) (o text)", "(send " order ") (recv (enc \"paid\" c m o (privk b)))", " o") " " \
            role("merchant", "(c m name) (o text)", "(recv " order ") (send " claim ")") " " \
            role("bank", "(c m l b name) (o p text)", "(recv (cat " order " " claim " (enc \"paid\" c l p (privk b)))) (send (enc \"paid\" c m o (privk b)))"))
        problem("(" substr(names("c"), 2) " m b name)", each("(defstrand customer 2 (c c", ") (m m) (b b))") " (non-orig (privk m) (privk b)" each("(privk c", ")") ")")
    # Random protocols and problems; the size is their number.
    } else if (kind == "random") {
        drawn = n * 7919 + 1
        for (i = 0; i < 4; i++) {
            split("", carried)
            forms[i] = term(1)
            forms[i] = "(enc " forms[i] " " term(1) (draw(2) ? " (pubk a" : " (privk a") draw(2) "))"
            for (j = 0; j < 2; j++) if ("n" j in carried) carries[i, j]
        }
        for (i = 0; i < 3; i++) s = s " " random_role("r" i)
        protocol(substr(s, 2))
        s = " (defstrand r0 " height["r0"] " (a0 a0) (a1 a1))"
        problem("(a0 a1 name)", s " (non-orig (privk a0) (privk a1))")
    } else {
        print "sizes.sh: no kind " kind > "/dev/stderr"
        exit 2
    }
}'
