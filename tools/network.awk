# Reads a network text, as `compile` prints it, for the scripts beside this file. The report that `complete` prints may follow it.
# A text that is neither is answered with one line on standard error and status 1, before anything is written.
#
# Where is_read is set at the end, these are known:
#   is_dual, species, reactions             the kind and the two numbers
#   inputs, input[i], input[i, "minus"]     the species of input i; the second of a dual network alone
#   context                                 its species, or 0
#   output, output_minus                    likewise
#   parts[r, side], part[r, side, i], count[r, side, i]    the species of a side of reaction r, "taken" or "given", and their counts
#   has_report, amount[s], flux[r]          the amounts of the report's state and the fluxes of its completion
# Numbers that may be large are kept as they are written.

function refuse(why) {
    printf "%s: %s\n", tool, why | "cat >&2"
    is_refused = 1
    exit 1
}

function malformed() { refuse("malformed line " (is_at_end ? NR + 1 : NR)) }

# ---- tokens

function is_above_greatest(digits) {
    return length(digits) > 19 || (length(digits) == 19 && "n" digits > "n9223372036854775807")
}

# Cuts a line into the tokens 1 to tokens.
function cut(line) {
    split("", token)
    tokens = 0
    sub(/#.*/, "", line)
    while (line != "") {
        if (match(line, /^[ \t\r]+/)) {
            line = substr(line, RLENGTH + 1)
        } else if (match(line, /^[A-Za-z]+/) || match(line, /^[0-9]+/) || match(line, /^(->|>=|[(),+:\/-])/)) {
            token[++tokens] = substr(line, 1, RLENGTH)
            line = substr(line, RLENGTH + 1)
            if (token[tokens] ~ /^0[0-9]/ || (token[tokens] ~ /^[0-9]/ && is_above_greatest(token[tokens]))) malformed()
        } else {
            malformed()
        }
    }
}

function is_number(i) { return token[i] ~ /^[0-9]+$/ }

# The line is these words, each of which stands for itself, N for a number.
function is_line(words,    wanted, i) {
    if (split(words, wanted, " ") != tokens) return 0
    for (i = 1; i <= tokens; i++) {
        if (wanted[i] == "N" ? !is_number(i) : token[i] "" != wanted[i]) return 0
    }
    return 1
}

# The species whose number is token i.
function species_at(i) {
    if (token[i] + 0 < 1 || token[i] + 0 > species) malformed()
    return token[i] + 0
}

# The fraction from token i to the last.
function fraction_from(i,    sign) {
    if (token[i] == "-") sign = token[i++]
    if (is_number(i) && i == tokens) return sign token[i]
    if (is_number(i) && token[i + 1] == "/" && is_number(i + 2) && token[i + 2] + 0 > 0 && i + 2 == tokens) return sign token[i] "/" token[i + 2]
    malformed()
}

# ---- lines

function name_input(i) {
    if (i in is_input) malformed()
    is_input[i] = 1
    named++
    return i
}

function read_input() {
    if (!is_line(is_dual ? "input S N S N" : "input S N")) malformed()
    inputs++
    input[inputs] = name_input(species_at(3))
    if (is_dual) input[inputs, "minus"] = name_input(species_at(5))
    if (has_context && named >= species) malformed()
    if (inputs > 8) refuse("limit inputs " inputs)
}

function read_output() {
    if (!is_line(is_dual ? "output S N S N" : "output S N")) malformed()
    output = species_at(3)
    if (is_dual) output_minus = species_at(5)
    if (output == output_minus) malformed()
}

# Reads a side from token i on, and answers what follows it.
function read_side(r, side, i,    n, last) {
    last = 0
    for (;;) {
        parts[r, side]++
        n = "1"
        if (is_number(i)) {
            n = token[i++]
            if (n + 0 < 2) malformed()
        }
        if (token[i] != "S" || !is_number(i + 1) || species_at(i + 1) <= last) malformed()
        last = species_at(i + 1)
        part[r, side, parts[r, side]] = last
        count[r, side, parts[r, side]] = n
        i += 2
        if (token[i] != "+") return i
        i++
    }
}

function read_reaction(r,    i) {
    parts[r, "taken"] = parts[r, "given"] = 0
    i = read_side(r, "taken", 1)
    if (token[i++] != "->") malformed()
    if (token[i] == "0" && i == tokens) return
    if (read_side(r, "given", i) != tokens + 1) malformed()
}

function read_line() {
    if (place == "start") {
        if (!is_line("crn 1 dual") && !is_line("crn 1 direct") && !is_line("crn 2 dual") && !is_line("crn 2 direct")) malformed()
        has_context = token[2] == 2
        is_dual = token[3] == "dual"
        place = "species"
    } else if (place == "species") {
        if (!is_line("species N") || token[2] + 0 < 1 + is_dual + has_context) malformed()
        if (token[2] + 0 > 65536) refuse("limit species " token[2])
        species = token[2] + 0
        place = "input"
    } else if (place == "input" && (inputs == 0 || token[1] == "input")) {
        read_input()
    } else if (place == "input" && has_context) {
        if (!is_line("context S N")) malformed()
        context = species_at(3)
        if (context in is_input) malformed()
        place = "output"
    } else if (place == "input" || place == "output") {
        read_output()
        place = "reactions"
    } else if (place == "reactions") {
        if (!is_line("reactions N")) malformed()
        if (token[2] + 0 > 65536) refuse("limit reactions " token[2])
        reactions = token[2] + 0
        place = reactions ? "reaction" : "report"
    } else if (place == "reaction") {
        read_reaction(++read)
        if (read == reactions) place = "report"
    } else {
        read_report()
    }
}

function read_report(    n) {
    if (place == "report") {
        if (!is_line("species N reactions N") || token[2] + 0 != species || token[4] + 0 != reactions) malformed()
        place = "state"
    } else if (place == "state") {
        if (!is_line("state")) malformed()
        place = "amount"
    } else if (place == "amount" && token[1] == "amount") {
        if (token[2] != "S" || !is_number(3) || species_at(3) <= last_named || token[4] == "-") malformed()
        last_named = species_at(3)
        amount[last_named] = fraction_from(4)
    } else if (place == "amount") {
        if (!is_line("completion")) malformed()
        place = "flux"
    } else if (place == "flux" && token[1] == "segment") {
        n = token[2] + 0
        if (!is_number(2) || n <= last_flow || n > reactions || token[3] != ":" || token[4] == "-") malformed()
        last_flow = n
        flux[n] = fraction_from(4)
    } else {
        if (place == "flux") place = is_dual ? "plus" : "value"
        if (place == "end" || token[1] != place || (place != "value" && token[2] == "-")) malformed()
        fraction_from(2)
        place = place == "plus" ? "minus" : place == "minus" ? "value" : "end"
    }
}

BEGIN {
    place = "start"
    species = reactions = inputs = named = context = output = output_minus = read = last_named = last_flow = 0
}

{
    cut($0)
    if (tokens) read_line()
}

END {
    is_at_end = 1
    if (is_refused) exit 1
    if (place != "report" && place != "end") malformed()
    has_report = place == "end"
    is_read = 1
}
