# What the functions of the code do with bytes that they are lent, for `.ci/looks`: a line for each function, as it says. Of text/src, where
# the cursor is, a function that names the cursor or a field of it is listed whole, but for its contract.
# A line "past: .." says where bytes are lent in another form, a name is taken in under another, the cursor stands where it should not, or
# code stands in a form that is not read here.

# ---- tokens

function scan(line) {
    while (line != "") {
        if (match(line, /^[ \t]+/)) { line = substr(line, RLENGTH + 1); continue }
        if (line ~ /^\/\//) return
        if (!match(line, /^b?"([^"\\]|\\.)*"/) && !match(line, /^b?'([^'\\]|\\[^']+|\\')'/) && !match(line, /^'?[A-Za-z0-9_]+/) \
            && !match(line, /^(::|->|=>|\.\.=|\.\.|[-+*\/%&|^=!<>]=)/)) RLENGTH = 1
        # a comma before the bracket that closes a list is none
        if (t[n] == "," && line ~ /^[])}]/) n--
        t[++n] = substr(line, 1, RLENGTH)
        place[n] = FNR
        if (words(n - 1, n) == "/ *") past(n, "a comment that goes over lines")
        if (t[n] == "\"" || words(n - 1, n) ~ /^b?r ["#]/) past(n, "a raw name or string, or one that goes over lines")
        line = substr(line, RLENGTH + 1)
    }
}
function words(from, to,    s) { for (s = t[from]; from < to; ) s = s " " t[++from]; return s }

# the bracket that closes the one at i, and the one that opens the pair in which i stands
function closing(i,    depth) {
    for (depth = 0; i < n; i++) {
        if (t[i] ~ /^[[({]$/) depth++
        if (t[i] ~ /^[])}]$/ && --depth == 0) break
    }
    return i
}
function opening(i,    depth) {
    for (depth = 1; i > 1; ) {
        i--
        if (t[i] ~ /^[])}]$/) depth++
        if (t[i] ~ /^[[({]$/ && --depth == 0) break
    }
    return i
}
# past the parameters of types in angle brackets, if there are such at i
function past_types(i,    depth) {
    if (t[i] != "<") return i
    for (depth = 0; i < n; i++) {
        if (t[i] == "<") depth++
        if (t[i] == ">" && --depth == 0) return i + 1
    }
    return i
}
# the function whose arguments stand in the brackets around i, with its path
function callee(i,    name) {
    i = opening(i) - 1
    for (name = t[i]; t[i - 1] == "::"; i -= 2) name = t[i - 2] "::" name
    return name
}
# what else it is given, up to what a function that is made there is given in its turn
function given(i,    to, bars) {
    for (to = closing(opening(i)); i < to && !(t[i] == "|" && bars++); ) i++
    return i
}
function past(i, what) { print "past: " file ":" place[i] ": " what }

# ---- functions

# the parameters between two brackets: which lend bytes
function read_parameters(from, to,    i, last, one) {
    split("", lent)
    for (i = from + 1; i < to; i = last + 1) {
        for (last = i; last < to && t[last] != ","; last++) if (t[last] ~ /^[[(]$/) last = closing(last)
        one = words(i, last - 1)
        if (one ~ /^[a-z_]+ : & ('a )?\[ u8 \]$/) lent[t[i]] = 1
        else if (one == "room : & mut [ u8 ]" && file ~ /^tools\/src\//) lent["room"] = 1
        else if (one == "digits : & mut [ u8 ; MOST_DIGITS ]" && file == "text/src/number.rt") continue
        else if (one ~ /&.*u8/ && one !~ /^out(put)? : & mut \[ u8 \]$/) past(i, "bytes are lent otherwise: " one)
    }
}

# what a type has to do for a function, where bytes are spoken of
function asked(from, to,    i) {
    for (i = from; i <= to; i++) if (t[i] == "u8") return " " words(from, to)
}
# whether the cursor or a field of it is named, and a body that does
function opens(from, to) {
    for (; from <= to; from++) if (t[from] ~ /^(Cursor|Self|text|at)$/) return 1
}
function whole(from, to,    s) {
    s = words(from, to)
    gsub(/ \. /, ".", s)
    return s
}

# what a body does with bytes
function read_body(name, does, from, to,    i, loops, ends) {
    loops = 0
    split("", ends)
    for (i = from; i <= to; i++) {
        # a loop goes from its word to the end of the block that follows
        if (t[i] ~ /^(while|for|loop)$/) ends[++loops] = 0
        if (loops && !ends[loops] && t[i] == "{") ends[loops] = closing(i)
        while (loops && ends[loops] == i) loops--
        if (t[i] == "use") past(i, "a name is taken in where only a function sees it")
        # a cursor of a text is told by the text, which goes to it
        if (t[i] == "Cursor" && words(i + 1, i + 5) != ":: new ( text )") does = does " <" words(i, i + 4) ">" (loops ? "*" : "")
        if (t[i - 1] == "." || t[i - 1] == "::" || t[i + 1] == "::") continue
        if (!(t[i] == "text" || t[i] in lent) || words(i + 1, i + 4) == ". len ( )") continue
        if (t[i - 1] ~ /^[(,]$/ && t[i + 1] ~ /^[,)]$/) does = does " " callee(i) (loops ? "*" : "")
        else does = does " <" words(i - 1, words(i - 2, i + 1) == "& mut text ," ? given(i) : i + 3) ">"
    }
    if (does != "") print file " " name ":" does
}

function read_function(i,    name, does, from, to, where) {
    name = t[i]
    known++
    # one without a name is a type, and one too many
    from = name == "(" ? i : past_types(i + 1)
    does = asked(i + 1, from - 1)
    while (t[from] != "(") from++
    to = closing(from)
    read_parameters(from, to)
    # the contract stands before the body
    where = 0
    for (i = to + 1; t[i] != "{" && t[i] != ";" && i < n; i++) {
        if (t[i] == "where") where = i
        if (t[i] ~ /^(requires|ensures)$/) { while (t[i] != "{") i++; i = closing(i) }
        else if (where && t[i] == "u8") past(i, "bytes are lent in a bound")
    }
    if (t[i] == "{") {
        if (file ~ /^text\/src\// && (opens(from, to) || opens(i, closing(i)))) print file " " name ":" does " " whole(i, closing(i))
        else read_body(name, does, i, closing(i))
        i = closing(i)
    }
    return i
}

# how a cursor is declared, up to what it keeps true
function read_cursor(i,    from) {
    for (from = t[i - 1] == "pub" ? i - 1 : i; t[from - 1] == "]"; ) from = opening(from - 1) - 1
    while (t[i] != "ghost" && t[i] != "}") i++
    print file " struct Cursor: " words(from, i)
    while (t[i] != "}") i = t[i] == "{" ? closing(i) + 1 : i + 1
    return i
}

# ---- files

function read_file(    i) {
    for (i = 1; i <= n; i++) {
        if (t[i] == "struct" && t[i + 1] == "Cursor") i = read_cursor(i)
        if (t[i] == "Cursor" && file " " words(i - 4, i - 1) != "text/src/read.rt impl < 'a >")
            past(i, "more is said of a cursor: " words(i - 3, i))
        if (words(i, i + 2) == "[ u8 ]" && file " " words(i - 5, i - 1) != "text/src/write.rt out : & 'a mut")
            past(i, "bytes are lent in a type")
        if (t[i] == "macro_rules") past(i, "a macro, whose code stands elsewhere")
        if (t[i] == "ghost") { while (i < n && t[i] !~ /^[;{]$/) i++; if (t[i] == "{") i = closing(i) }
        else if (t[i] == "use") { for (; t[i] != ";"; i++) if (t[i] == "as") past(i, "a name is taken in under another: " t[i + 1]) }
        else if (t[i] == "type") { for (; i < n && t[i] != ";"; i++) if (t[i] ~ /^(Cursor|u8)$/) past(i, "a type renamed: " t[i]) }
        else if (t[i] == "fn") i = read_function(i + 1)
    }
    # none stands in another, or in what is taken for a contract
    if (known != heads) past(n, "of " heads " functions " known " are read")
    n = known = heads = 0
}
FNR == 1 { if (n) read_file(); file = FILENAME; sub(/^crates\//, "", file) }
/^ *(pub(\([a-z]+\))? )?(extern "C" )?fn / { heads++ }
{ scan($0) }
END { read_file() }
