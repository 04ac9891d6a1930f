# Of a script and a journal: writes the script with the journal behind it into numbered files of the folder `into`, each
# time with one line of the journal changed. File 3n - 2 has another byte in line n, file 3n - 1 has one gone, and file
# 3n has one twice. Which byte of the line that is goes by its number.
BEGIN {
    ring = "abcdefghijklmnopqrstuvwxyz0123456789 ->=."
    ORS = ""
}
NR > FNR {
    first[FNR] = length(text) + 1
    bytes[FNR] = length($0)
}
{ text = text $0 "\n" }

function put_in_place(file, put) {
    file = into "/" file
    print substr(text, 1, at - 1) put substr(text, at + 1) >file
    close(file)
}

END {
    for (n = 1; n <= FNR; n++) {
        at = first[n] + 7 * n % bytes[n]
        byte = substr(text, at, 1)
        put_in_place(3 * n - 2, substr(ring, index(ring, byte) % length(ring) + 1, 1))
        put_in_place(3 * n - 1, "")
        put_in_place(3 * n, byte byte)
    }
}
