# The revisions of a session as a graph that `dot` draws, from its script or its log: an arrow leads to each revision that a command names.
#     awk -f docs/revisions.awk docs/revisions.script | dot -Tsvg > docs/revisions.svg
BEGIN { print "digraph revisions {\n    rankdir=BT; node [shape=box, fontname=\"monospace\", fontsize=11]" }
!/^[ \t]*(#|$)/ {
    line = $0
    sub(/ # [0-9]+: [0-9]+ bytes.*/, "", line)
    line = substr(line, 1, 36)
    gsub(/["\\]/, "\\\\&", line)
    printf "    r%d [label=\"%d: %s\"]\n", n, n, line
    if ($1 != "new" && $1 != "open") printf "    r%d -> r%d\n", n, $2
    if ($1 == "join") printf "    r%d -> r%d\n", n, $3
    if ($1 == "paste") printf "    r%d -> r%d [style=dashed]\n", n, $4
    n++
}
END { print "}" }
