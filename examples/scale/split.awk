# Splits a NEM12 file into parts, one for each NMI: the 100, the NMI's 200 records with what follows them, and the 900.
#     LC_ALL=C awk -v stores=2 -v out=DIR -f split.awk FILE        writes DIR/STORE-NMI
# STORE is the place of the NMI's last character among the digits and letters, by the number of stores. What follows no NMI goes
# to DIR/0-none, which the store refuses.
BEGIN { FS = ","; part = out "/0-none" }
function place(nmi) { return index("0123456789ABCDEFGHIJKLMNOPQRSTUVWXYZ", substr(nmi, 10, 1)) - 1 }
function part_of(nmi) {
    return length(nmi) == 10 && nmi !~ /[^0-9A-Z]/ ? out "/" place(nmi) % stores "-" nmi : out "/0-none"
}
# A file is closed before the next: there may be more NMIs than files that may be open.
function add(line, to) {
    if (!(to in begun)) { begun[to]; if (header != "") print header > to; close(to) }
    print line >> to
    if (to != last) { close(last); last = to }
}
{ kind = $1; sub(/\r$/, "", kind) }
NF < 2 && kind == "" { next }
kind == "100" && header == "" { header = $0; next }
kind == "900" { for (each in begun) add($0, each); next }
kind == "200" { part = part_of($2) }
{ add($0, part) }
