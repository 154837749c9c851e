# Makes a Graphviz graph of a model that `learn` printed: a state has its number and the least word that reaches it; letters that run from
# one state to another with one output share an edge.
# The least words are those of a breadth first search, letters in order.
NR == 1 { states = $2; letters = $3; next }
{ output[$1, $2] = $3; next_state[$1, $2] = $4 }
END {
    print "digraph model {"
    print "    rankdir=LR;"
    print "    node [shape=circle, fontname=\"sans-serif\"];"
    print "    edge [fontname=\"sans-serif\"];"
    print "    start [shape=point];"
    print "    start -> 0;"
    word[0] = ""
    met[0] = 1
    queue[0] = 0
    tail = 1
    for (head = 0; head < tail; head++) {
        s = queue[head]
        for (a = 0; a < letters; a++) {
            t = next_state[s, a]
            if (t in met) continue
            met[t] = 1
            word[t] = (word[s] == "" ? a : word[s] " " a)
            queue[tail++] = t
        }
    }
    for (s = 0; s < states; s++) printf "    %d [label=\"%d\\n%s\"];\n", s, s, (word[s] == "" ? "(start)" : word[s])
    for (s = 0; s < states; s++)
        for (a = 0; a < letters; a++) {
            t = next_state[s, a]
            o = output[s, a]
            if ((s, t, o) in drawn) continue
            drawn[s, t, o] = 1
            label = a
            for (b = a + 1; b < letters; b++) if (next_state[s, b] == t && output[s, b] == o) label = label ", " b
            printf "    %d -> %d [label=\"%s / %s\"];\n", s, t, label, o
        }
    print "}"
}
