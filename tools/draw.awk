# The picture of a network. See `draw`.

# ---- which species stand side by side, by their numbers and by the reactions that name them

# A reaction that takes these two species and no other, or 0.
function joined(s, t) { return (s, t) in joins ? joins[s, t] : 0 }

# The input species or context of which s is a copy, or 0.
function original(s,    r, from) {
    if (makers[s] != 1 || made[s] != "1") return 0
    r = maker[s, 1]
    from = part[r, "taken", 1]
    return parts[r, "taken"] == 1 && count[r, "taken", 1] == "1" && (from == context || from in is_input) ? from : 0
}

function look_at_reactions(    r, i, s) {
    for (r = 1; r <= reactions; r++) {
        if (parts[r, "taken"] == 2) joins[part[r, "taken", 1], part[r, "taken", 2]] = r
        for (i = 1; i <= parts[r, "taken"]; i++) is_seen[part[r, "taken", i]] = 1
        for (i = 1; i <= parts[r, "given"]; i++) {
            s = part[r, "given", i]
            is_seen[s] = 1
            maker[s, ++makers[s]] = r
            made[s] = count[r, "given", i] ""
        }
    }
}

# Species of dual networks come in pairs, inputs and copies too; those of a minimum or a maximum are two pairs, of which one reaction takes the first.
# In a direct network the two species of which a reaction makes the lesser stand side by side.
function side_by_side(    s, r) {
    for (s = 1; is_dual && s < species; s++) {
        if (!is_free(s) || original(s) == context && context) continue
        if (s + 3 <= species && (r = joined(s, s + 1))) {
            gate(s, r)
            s += 3
        } else if (is_free(s + 1) && !original(s) == !original(s + 1)) {
            row(s, s + 1)
            s++
        }
    }
    for (r = 1; !is_dual && r <= reactions; r++) {
        if (parts[r, "taken"] == 2 && parts[r, "given"] == 1) row(part[r, "taken", 1], part[r, "taken", 2])
    }
}

function is_free(s) { return !(s in is_input) && s != context }

# ---- DOT

function row(s, t) {
    if (!(s in is_seen && t in is_seen)) return
    printf "  { rank=same; S%d; S%d }\n", s, t
    is_placed[s] = is_placed[t] = 1
}

# A minimum gives its third species by the reaction that takes the first two, and a maximum its fourth.
function gate(s, r,    what, i) {
    what = parts[r, "given"] != 1 ? "" : part[r, "given", 1] == s + 2 ? "min" : part[r, "given", 1] == s + 3 ? "max" : ""
    printf "  subgraph cluster_%d {\n  label=\"%s\"\n", s, what
    row(s, s + 1)
    row(s + 2, s + 3)
    for (i = 1; i <= makers[s]; i++) print "  R" maker[s, i]
    for (i = 1; i <= makers[s + 1]; i++) print "  R" maker[s + 1, i]
    printf "  R%d\n  }\n", r
}

function species_node(s, role, colour,    text) {
    if (is_drawn[s]++) return
    text = "S" s
    if (role != "") text = text "\\n" role
    if (s in amount) text = text "\\n" amount[s]
    printf("  S%d [label=\"%s\"%s]\n", s, text, (colour == "" ? "" : ", style=filled, fillcolor=" colour))
}

function inputs_above(    i, line) {
    for (i = 1; i <= inputs; i++) {
        species_node(input[i], is_dual ? "x" i " plus" : "x" i, "lightblue")
        line = line " S" input[i] ";"
        if (is_dual) {
            species_node(input[i, "minus"], "x" i " minus", "lightblue")
            line = line " S" input[i, "minus"] ";"
        }
    }
    if (context) {
        species_node(context, "begins with 1", "lightyellow")
        line = line " S" context ";"
    }
    print "  { rank=source;" line " }"
}

function output_below() {
    species_node(output, is_dual ? "output plus" : "output", "palegreen")
    if (is_dual) species_node(output_minus, "output minus", "palegreen")
    if (output in is_input || output in is_placed || output_minus in is_input || output_minus in is_placed) return
    print "  { rank=sink; S" output ";" (is_dual ? " S" output_minus ";" : "") " }"
}

function arrow(from, to, n, more) {
    if (n "" != "1") more = more (more == "" ? "" : ", ") "label=\"" n "\""
    printf("  %s -> %s%s\n", from, to, (more == "" ? "" : " [" more "]"))
}

# In a report's picture a reaction that has no flux is grey.
function rests(r) { return has_report && !(r in flux) }

function reaction_node(r) {
    printf("  R%d [label=\"%d%s\"%s]\n", r, r, ((r in flux) ? ": " flux[r] : ""), (rests(r) ? ", color=grey" : ""))
}

function arrows_of(r,    i, colour) {
    colour = rests(r) ? "color=grey" : ""
    for (i = 1; i <= parts[r, "taken"]; i++) arrow("S" part[r, "taken", i], "R" r, count[r, "taken", i], "arrowhead=none" (colour == "" ? "" : ", " colour))
    for (i = 1; i <= parts[r, "given"]; i++) arrow("R" r, "S" part[r, "given", i], count[r, "given", i], colour)
}

END {
    if (!is_read) exit 1
    look_at_reactions()
    print "digraph network {"
    print "  fontname=\"Helvetica\"; fontsize=10; labeljust=l; color=grey; fontcolor=grey40"
    print "  edge [fontname=\"Helvetica\", fontsize=9, arrowsize=0.5]"
    print "  node [fontname=\"Helvetica\", fontsize=8, shape=box, width=0.2, height=0.15, margin=\"0.03,0.01\"]"
    for (r = 1; r <= reactions; r++) reaction_node(r)
    print "  node [fontsize=10, shape=ellipse, width=0.3, height=0.3, margin=\"0.05,0.03\"]"
    inputs_above()
    side_by_side()
    output_below()
    for (s = 1; s <= species; s++) {
        if (s in is_seen) species_node(s, "", "")
    }
    for (r = 1; r <= reactions; r++) arrows_of(r)
    print "}"
}
