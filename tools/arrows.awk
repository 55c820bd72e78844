# The reactions of a network, one a line. See `arrows`.

# The amounts are arguments, and no files.
BEGIN {
    for (i = 2; i < ARGC; i++) {
        given[++starts] = ARGV[i]
        delete ARGV[i]
    }
}

function is_amount(text) { return text ~ /^(0|[1-9][0-9]*)(\/[1-9][0-9]*)?$/ }

function start_line(s, text, name) { printf "# S%d = %s%s\n", s, text, name }

function starts_of_inputs(    i, n) {
    for (i = 1; i <= starts; i++) {
        if (!is_amount(given[i])) refuse("no amount: " given[i])
    }
    if (starts != (1 + is_dual) * inputs) refuse("wanted " (1 + is_dual) * inputs " amounts, one for each input species")
    for (i = 1; i <= inputs; i++) {
        start_line(input[i], given[++n], is_dual ? ", x" i " plus" : ", x" i)
        if (is_dual) start_line(input[i, "minus"], given[++n], ", x" i " minus")
    }
    if (context) start_line(context, "1", ", the context")
}

function amounts_of_state(    s) {
    for (s = 1; s <= species; s++) {
        if (s in amount) start_line(s, amount[s], "")
    }
}

function side_of(r, side,    i, text) {
    for (i = 1; i <= parts[r, side]; i++) {
        text = text (i > 1 ? " + " : "") (count[r, side, i] "" == "1" ? "" : count[r, side, i] " ") "S" part[r, side, i]
    }
    return text == "" ? "0" : text
}

END {
    if (!is_read) exit 1
    if (starts) starts_of_inputs()
    else if (has_report) amounts_of_state()
    if (starts || has_report) printf "# output S%d%s\n", output, is_dual ? " - S" output_minus : ""
    for (r = 1; r <= reactions; r++) print side_of(r, "taken") " -> " side_of(r, "given")
}
