# Makes the tables of bench/run from the lines of speed: the best time of each cell, ours as it is and the peers' as ratios.
# A ratio is the peer's time by ours: 1.00 is as fast as the peer, and 2.00 twice as fast.
BEGIN {
    FS = "\t"
    columns = split("libtomcrypt;nettle;OpenSSL, AES_*;OpenSSL, EVP;byte-wise C", peers, ";")
    head = "libtomcrypt | nettle, AES instructions off | OpenSSL, AES instructions off | OpenSSL, AES instructions on | byte-wise C"
}
{
    at = $1 FS $2 FS $6
    if (!(at in best) || $7 < best[at]) best[at] = $7
    name[$2] = $3; unit[$2] = $4; size[$2] = $5
    if ($2 > last) last = $2
    bits[$1] = 1
}
function shown(k, c) {
    t = best[k FS c FS "ours"]
    return unit[c] == "ns" ? sprintf("%.0f ns", t) : sprintf("%.1f MB/s", size[c] * 1000 / t)
}
function row(k, c,    line, i) {
    line = "| " name[c] " | " shown(k, c)
    for (i = 1; i <= columns; i++) line = line sprintf(" | %.2f", best[k FS c FS peers[i]] / best[k FS c FS "ours"])
    return line " |"
}
function table(k,    c) {
    print "\n## AES-" k "\n\n| | ours | " head " |\n|---|---|---|---|---|---|---|"
    for (c = 0; c <= last; c++) print row(k, c)
}
END {
    if (bits[128]) table(128)
    if (bits[256]) table(256)
}
