# The order of the house, read from the text of the files: what tests/house runs. It prints a line for each finding.
# - A crate depends on its own layer and on lower ones (crates.txt has the layers), names no crate that it does not declare, and
#   declares none that it does not name. What a declared crate hands on, by `pub use`, need not be declared.
# - Something refers to each definition and lemma: another one, a file of Rattle, as using(crate::proofs::File::lemma) in an attribute
#   does, a page of docs/, README.md or a Lib.antt. Samples,
#   in files named Samples, serve no other proof. The prover itself reads what a proof file says of a goal, `returns : goal.returns`,
#   and the NAME_spec of a Proof.antt.
# - A file uses each name that it imports. (A module that is imported whole, by its name or `as` another, also shortens what the prover
#   prints, and is left alone.)
# - No line has more than 300 signs. Each file has a head comment, but for proof files and Lib.antt, which lists modules.
# - A must-fail edit has letters, digits and _ in its name, and what it replaces stands once. Each crate below the last layer has one,
#   unless there is nothing in it to edit.
# - What a page cites as crate::item, as `crate File.name` or, of an edit, as crate/edit is there. (docs/CHANGES.md, docs/PORT.md and
#   docs/DESIGN-PASS.md tell of the past.)
# It reads crates.txt, the pages, the edits, and every .rt and .antt file, in this order, with bytes for signs (LC_ALL=C); then any awk
# will do. It is text that is read: names are told apart by the file that an import names, and no further. An import is one line.

function found(where, what) { print where ": " what; findings++ }

# The file of ours that a module's name means: Rattle.rules.specs.Tree is rules/specs/Tree.
function file_of(module) {
    if (!sub(/^Rattle\./, "", module)) return ""
    gsub(/\./, "/", module)
    return module
}

# How a name is written where it is used: ◌+◌ as +. The parts go to part[1..].
function parts_of(name) {
    if (name !~ /◌/) { part[1] = name; return 1 }
    gsub(/^(◌)+|(◌)+$/, "", name)
    return split(name, part, /(◌)+/)
}

# ---- crates.txt: the layers are its lines '#: NAME', from the lowest; '#: NAME not LOWER' bars one. A crate's name may have a kind behind it.
function read_crates(    k, name) {
    if ($1 == "#:") {
        layer = $2
        level[layer] = top = ++layers
        for (k = 4; k <= NF; k++) barred[layer, $k] = 1
    }
    sub(/#.*/, "")
    if (!(k = index($0, ":"))) return
    name = substr($0, 1, k - 1)
    sub(/[ \t].*/, "", name)
    crates[++crate_count] = name
    depends[name] = substr($0, k + 1)
    layer_of[name] = layer
    if (layer == "") found("crates.txt:" FNR, name " stands in no layer")
}

# ---- the pages: what stands between backticks is cited, and so is any word with an underscore.
function read_page(    k, n, quoted, text) {
    n = split($0, quoted, /`/)
    for (k = 2; k <= n; k += 2) {
        cite(quoted[k], "")
        if (quoted[k] ~ /^[a-z0-9_]+ [A-Z][A-Za-z0-9]*\.[^ .]+$/) cite_place(quoted[k])
    }
    cite($0, "_")
    n = split($0, quoted, /[ ,;:.|()`]+/)
    for (k = 1; k <= n; k++) {
        text = quoted[k]
        if (sub(/\/[a-z0-9_]+$/, "", text) && text in depends) cite_place(quoted[k])
    }
    for (text = $0; match(text, /[a-z][a-z0-9_]*::[A-Za-z0-9_]+/); text = substr(text, RSTART + RLENGTH))
        cite_place(substr(text, RSTART, RLENGTH))
}

function cite_place(what) {
    if (FILENAME ~ /CHANGES|PORT|DESIGN-PASS/) return
    places++
    place_name[places] = what
    place_page[places] = FILENAME ":" FNR
}

function cite(text, sign,    k, n, word) {
    n = split(text, word, /[] \t`,.;:()|\/[]+/)
    for (k = 1; k <= n; k++) if (index(word[k], sign) || sign == "") cited[word[k]] = 1
}

# ---- the must-fail edits: which there are, and what each replaces, by file
function list_edits(    k, name, of) {
    for (k = 1; k < ARGC; k++) {
        name = ARGV[k]
        if (!sub(/\.edit$/, "", name)) continue
        sub(/^crates\//, "", name)
        of = name
        sub(/\/.*/, "", of)
        sub(/.*\//, "", name)
        edits[of]++
        there[of "/" name] = 1
    }
}

function read_edit() {
    if (FNR == 1) edit_file = ""
    if (/^file: /) {
        edit_file = FILENAME
        sub(/must-fail\/[^\/]*$/, "", edit_file)
        edit_file = edit_file substr($0, 7)
    }
    if (!/^old: /) return
    olds++
    old_text[olds] = substr($0, 6)
    old_edit[olds] = FILENAME
    old_file[olds] = edit_file
    old_of[edit_file] = old_of[edit_file] " " olds
}

# ---- a file of Rattle or antt
function start_file() {
    here = FILENAME
    sub(/^crates\//, "", here)
    sub(/\.(rt|antt)$/, "", here)
    crate = here
    sub(/\/.*/, "", crate)
    code = FILENAME ~ /\.rt$/
    proof = FILENAME ~ /\/proofs\/.*\/(Invariants|Answers|Proof)\.antt$/
    files++
    block = 0
    modules = 0
    headed = 0
    split("", alias)
    old_count = split(old_of[FILENAME], old_here, " ")
}

# How often the text that an edit replaces stands in a line.
function read_olds(    k, text, at) {
    for (k = 1; k <= old_count; k++)
        for (text = $0; at = index(text, old_text[old_here[k]]); text = substr(text, at + 1)) old_times[old_here[k]]++
}

function read_line(    signs, line) {
    signs = $0
    gsub(/[\200-\277]/, "", signs)
    read_olds()
    if (length(signs) > 300) found(FILENAME ":" FNR, "a line of " length(signs) " signs; 300 are the most")
    if (NF && !headed) {
        headed = 1
        if ($1 !~ /^(\/\/|--)/ && !proof && FILENAME !~ /\/Lib\.antt$/) found(FILENAME, "no head comment")
    }
    if (FILENAME ~ /\/Lib\.antt$/ && $1 ~ /^--/) cite($0, "")
    line = $0
    if (code) sub(/\/\/.*/, "", line); else sub(/(^|[ \t])--([ \t].*)?$/, "", line)
    if (line ~ /^[ \t]*$/) return
    name_crates(line)
    if (line ~ /^ *(pub )?(ghost )?use /) { read_import(line); return }
    if (code) read_item(line)
    if (line ~ /^ *(pub )?mod /) return
    if (!code) read_block(line)
    read_words(line)
}

# The crates that a line names.
function name_crates(line,    text, name) {
    text = line
    while (match(text, /Rattle\.[A-Za-z0-9_]+/)) {
        name = substr(text, RSTART, RLENGTH)
        sub(/^Rattle\./, "", name)
        text = substr(text, RSTART + RLENGTH)
        names(name)
    }
    if (!code) return
    while (match(line, /[a-z0-9_]+::/)) {
        name = substr(line, RSTART, RLENGTH - 2)
        line = substr(line, RSTART + RLENGTH)
        names(name)
    }
}

function names(name) {
    if (name == crate || !(name in depends) || (crate, name) in named) return
    named[crate, name] = 1
    if (declares(crate, name)) return
    strays++
    stray_crate[strays] = crate
    stray_name[strays] = name
    stray_place[strays] = FILENAME ":" FNR
}

function declares(crate, name) { return index(depends[crate] " ", " " name " ") }

# An import: use M.{a, b as c}, use M as d, use M, use m::A. What `pub use` hands on is not for the file itself.
function read_import(line,    k, n, list, module, item, old) {
    sub(/;[ \t]*$/, "", line)
    if (sub(/^ *pub use /, "", line)) {
        module = line
        sub(/::.*/, "", module)
        sub(/.*::/, "", line)
        hands_on[crate, module] = 1
        items[crate, line] = 1
        return
    }
    sub(/^ *(ghost )?use /, "", line)
    if (k = index(line, ".{")) {
        module = substr(line, 1, k - 1)
        list = substr(line, k + 2)
    } else if (k = index(line, "::")) {
        module = ""
        list = substr(line, k + 2)
        sub(/^.*::/, "", list)
    } else if (match(line, / as /)) {
        alias[substr(line, RSTART + 4)] = file_of(substr(line, 1, RSTART - 1))
        return
    } else {
        module = line
        sub(/.*\./, "", line)
        alias[line] = file_of(module)
        return
    }
    gsub(/[{}]/, "", list)
    n = split(list, item, /, */)
    for (k = 1; k <= n; k++) {
        old = item[k]
        sub(/ as .*/, "", old)
        sub(/.* as /, "", item[k])
        refers[file_of(module), old] = 1
        imported[++imports] = here
        import_name[imports] = item[k]
        import_place[imports] = FILENAME ":" FNR
    }
}

# An item of Rattle: a function, a type, a constant, a module.
function read_item(line) {
    if (!match(line, /^ *(pub )?(extern "C" )?(fn|struct|enum|const|mod) /)) return
    if (line ~ /fn /) bodies[crate]++
    line = substr(line, RLENGTH + 1)
    sub(/[^A-Za-z0-9_].*/, "", line)
    items[crate, line] = 1
}

# A definition is its signature and what follows it: lines further in, its clauses, what it unfolds.
function read_block(line,    text, depth, first, kind) {
    text = line
    match(text, /^ */)
    depth = RLENGTH
    text = substr(text, depth + 1)
    first = text
    sub(/[ \t].*/, "", first)
    if (block && (depth > block_depth || first == block_name[block] || first == "unfolding" || first ~ /^[)}\]]/)) {
        if (block_kind != "" && match(text, /^(pub )?[^ (){}]+ :/)) own_name(text)
        return
    }
    block = 0
    while (modules && module_depth[modules] >= depth) modules--
    if (first == "module") { module_depth[++modules] = depth; return }
    if (depth != 2 * modules) return
    kind = ""
    while (match(text, /^(pub|unfoldable|abbrev|opaque|private|record|data) /)) {
        if (text ~ /^(record|data)/) kind = first
        text = substr(text, RLENGTH + 1)
    }
    if (text !~ /^[^ (){}=]+( [^=]*)? :( |$)/ && text !~ /^[^ (){}=]+( [^=]*)? where$/) return
    sub(/ .*/, "", text)
    if (text ~ /→/) return
    block = ++blocks
    block_depth = depth
    block_kind = kind
    block_name[block] = text
    block_file[block] = here
    block_place[block] = FILENAME ":" FNR
    block_read[block] = proof && is_read(text, $0)
    if (FILENAME ~ /\/specs\//) bodies[crate]++
    own_name(text)
}

# The prover reads what a proof file says of a goal, under the goal's own name in a module that rt writes, and a walk's NAME_spec.
function is_read(name, line,    of) {
    if (FILENAME ~ /\/Proof\.antt$/ && name ~ /_spec$/) return 1
    sub(/^.* : /, "", line)
    of = line
    return sub(/\..*/, "", of) && line == of "." name && alias[of] ~ /\/(Goals|Given)$/
}

# One more name of the block: its own, a constructor's, a field's.
function own_name(text,    k, n) {
    sub(/^pub /, "", text)
    sub(/ .*/, "", text)
    block_names[block] = block_names[block] " " text
    defined[here, text] = 1
    n = parts_of(text)
    for (k = 1; k <= n; k++) own[block, part[k]] = 1
}

# The words of a line that is no import. A word a.b also is what b is in the file that a stands for.
function read_words(line,    k, j, n, m, word, step, module) {
    n = split(line, word, /[ \t(){},;"]+/)
    for (k = 1; k <= n; k++) {
        m = split(word[k], step, /\./)
        for (j = 1; j <= m; j++) count(step[j])
        if (m < 2) continue
        if (step[1] in alias) refers[alias[step[1]], step[2]] = 1
        if (step[1] == "Rattle") {
            module = word[k]
            sub(/\.[^.]*$/, "", module)
            refers[file_of(module), step[m]] = 1
        }
    }
    if (!code) return
    read_paths(line)
    n = split(line, word, /[^A-Za-z0-9_]+/)
    for (k = 1; k <= n; k++) count(word[k])
}

# A lemma or a definition that an attribute names by its path, crate::proofs::File::lemma.
function read_paths(line,    path, name) {
    while (match(line, /[a-z0-9_]+::(specs|proofs)::[A-Za-z0-9_:]+/)) {
        path = substr(line, RSTART, RLENGTH)
        line = substr(line, RSTART + RLENGTH)
        sub(/^crate::/, crate "::", path)
        name = path
        sub(/.*::/, "", name)
        sub(/::[^:]*$/, "", path)
        gsub(/::/, "/", path)
        refers[path, name] = 1
    }
}

function count(word) {
    used[here, word]++
    if (block && (block, word) in own) used_inside[block, word]++
}

# ---- what can be said when all is read
function judge_strays(    k, j, n, dep, given) {
    for (k = 1; k <= strays; k++) {
        given = 0
        n = split(depends[stray_crate[k]], dep, " ")
        for (j = 1; j <= n; j++) if ((dep[j], stray_name[k]) in hands_on) given = 1
        if (!given) found(stray_place[k], "names " stray_name[k] ", which crates.txt does not give " stray_crate[k])
    }
}

function judge_pages(    k, at, crate, name, file) {
    for (k = 1; k <= places; k++) {
        if (at = index(place_name[k], "::")) {
            crate = substr(place_name[k], 1, at - 1)
            if ((crate, substr(place_name[k], at + 2)) in items) continue
        } else if (place_name[k] ~ /\//) {
            if (place_name[k] in there) continue
        } else {
            at = index(place_name[k], " ")
            crate = substr(place_name[k], 1, at - 1)
            file = name = substr(place_name[k], at + 1)
            sub(/\..*/, "", file)
            sub(/.*\./, "", name)
            if ((crate "/specs/" file, name) in defined || (crate "/proofs/" file, name) in defined) continue
        }
        found(place_page[k], "cites " place_name[k] ", which is not there")
    }
}

function judge_layers(    c, k, n, dep, name, of) {
    for (c = 1; c <= crate_count; c++) {
        name = crates[c]
        n = split(depends[name], dep, " ")
        for (k = 1; k <= n; k++) {
            if (!(dep[k] in depends)) continue
            of = layer_of[dep[k]]
            if (level[of] > level[layer_of[name]] || (layer_of[name], of) in barred)
                found("crates.txt", name " (" layer_of[name] ") may not depend on " dep[k] " (" of ")")
            if (!((name, dep[k]) in named)) found("crates.txt", name " depends on " dep[k] ", which no file of it names")
        }
    }
}

function judge_imports(    k, j, n, seen) {
    for (k = 1; k <= imports; k++) {
        seen = (imported[k], import_name[k]) in used
        n = parts_of(import_name[k])
        for (j = 1; j <= n; j++) if ((imported[k], part[j]) in used) seen = 1
        if (!seen) found(import_place[k], "imports " import_name[k] " and does not use it")
    }
}

# Alive: a name of the definition is used in its file outside of it, or imported, or cited. A sample serves no other proof, and the prover
# reads what a proof file says of a goal.
function judge_blocks(    b, k, j, m, n, name, alive) {
    for (b = 1; b <= blocks; b++) {
        if (block_file[b] ~ /Samples$/ || block_read[b]) continue
        alive = 0
        n = split(block_names[b], name, " ")
        for (k = 1; k <= n; k++) {
            if ((block_file[b], name[k]) in refers || name[k] in cited) alive = 1
            m = parts_of(name[k])
            for (j = 1; j <= m; j++) if (used[block_file[b], part[j]] > used_inside[b, part[j]]) alive = 1
        }
        if (!alive) found(block_place[b], "nothing refers to " block_name[b])
    }
}

# An edit replaces what stands once in its file. Every layer but the last says by an edit of each crate what its contracts or laws
# rule out.
function judge_edits(    k) {
    for (k = 1; k <= olds; k++)
        if (old_times[k] != 1) found(old_edit[k], "what it replaces stands " old_times[k] + 0 " times in " old_file[k])
    for (k = 1; k < ARGC; k++)
        if (ARGV[k] ~ /\.edit$/ && ARGV[k] !~ /\/[A-Za-z0-9_]+\.edit$/) found(ARGV[k], "a name of letters, digits and _ is wanted")
    for (k = 1; k <= crate_count; k++)
        if (level[layer_of[crates[k]]] < top && bodies[crates[k]] && !edits[crates[k]])
            found("crates/" crates[k], "no must-fail edit")
}

BEGIN { list_edits() }
FNR == 1 && FILENAME ~ /\.(rt|antt)$/ { start_file() }
FILENAME == "crates.txt" { read_crates(); next }
FILENAME ~ /\.md$/ { read_page(); next }
FILENAME ~ /\.edit$/ { read_edit(); next }
{ read_line() }
END {
    judge_pages()
    judge_strays()
    judge_layers()
    judge_imports()
    judge_blocks()
    judge_edits()
    if (findings) exit 1
    print "house: in order, " crate_count " crates, " files " files"
}
