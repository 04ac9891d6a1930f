# Prints the script that the generator makes of the number n: awk -v n=1 -f .ci/generate.awk

# A draw below k. The 64 bits of the generator's number are x3 to x0, of 16 bits each, the lowest last.
function draw(k,    a, b, c, d) {
    a = x0 * 32557 + 33103
    b = x1 * 32557 + x0 * 19605 + 63335 + int(a / 65536)
    c = x2 * 32557 + x1 * 19605 + x0 * 62509 + 31614 + int(b / 65536)
    d = x3 * 32557 + x2 * 19605 + x1 * 62509 + x0 * 22609 + 5125 + int(c / 65536)
    x0 = a % 65536
    x1 = b % 65536
    x2 = c % 65536
    x3 = d % 65536
    return int((x3 * 65536 + x2) / 2) % k
}

function call(what, lock) {
    print "call t" t, what, "k" lock
}

function block(c, p, q) {
    if (c == 0) {
        call("lock", p)
        call("lock", q)
        call("unlock", q)
        call("unlock", p)
    } else if (c == 1) {
        call("spin", 12 + p % 6)
        call("unspin", 12 + p % 6)
    } else if (c == 2) {
        call("read", 18 + p % 3)
        call("unread", 18 + p % 3)
    } else if (c == 3) {
        call("write", 21 + p % 3)
        call("unwrite", 21 + p % 3)
    } else if (c == 4) {
        call("lock", p)
        call("write", 18 + q % 3)
        call("unwrite", 18 + q % 3)
        call("unlock", p)
    } else {
        call("local", 24)
        call("unlocal", 24)
    }
}

BEGIN {
    x0 = n % 65536
    x1 = int(n / 65536)
    print "rtscript 1"
    print "cpus 4"
    for (t = 0; t < 32; t++) {
        prio = draw(140)
        print "task t" t, prio, draw(4)
    }
    for (l = 0; l < 25; l++)
        print "lock k" l, l < 12 ? "mutex" : l < 18 ? "spin" : l < 21 ? "rwlock" : l < 24 ? "rwsem" : "local"
    for (t = 0; t < 32; t++)
        for (i = 0; i < 100; i++) {
            c = draw(6)
            p = draw(12)
            q = draw(12)
            block(c, p, q)
        }
    for (i = 0; i < 20000; i++)
        print "pick t" draw(32)
    print "go"
}
