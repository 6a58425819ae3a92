# What `table` and `chart` share: reads the lines of `measure`, and gives the medians.

function refuse(what) {
    print "line " NR ": " what | "cat >&2"
    close("cat >&2")
    refused = 1
    exit 1
}

/^#/ { head = substr($0, 3); next }
$1 == "version" && NF > 2 { version[$2] = substr($0, length($1 $2) + 3); next }
$1 == "absent" && NF == 2 { absent = absent (absent == "" ? "" : ", ") $2; next }

# LOAD COUNT LEFT SEED WHO kept N WHAT N
NF == 9 && $6 == "kept" && ($8 == "under" || $8 == "moves") && $7 $9 ~ /^[0-9]+$/ {
    if (!($5 in known)) {
        known[$5] = 1
        who[++whos] = $5
    }
    at = ++seeds[$1, $3, $5]
    kept[$1, $3, $5, at] = $7
    other[$1, $3, $5, at] = $9
    next
}

{ refuse("not a line of measure") }

function median(list, key, length_,    sorted, i, j, it) {
    for (i = 1; i <= length_; i++) {
        it = list[key, i] + 0
        for (j = i; j > 1 && sorted[j - 1] > it; j--)
            sorted[j] = sorted[j - 1]
        sorted[j] = it
    }
    return sorted[int((length_ + 1) / 2)]
}

function fewest(left) {
    return int((left + 15) / 16)
}

function has(load, left, name) {
    return (load, left, name) in seeds
}

function pages(load, left, name) {
    return median(kept, load SUBSEP left SUBSEP name, seeds[load, left, name])
}

# Of a malloc, the pages with a byte of what is left; of slabs, the moves.
function beside(load, left, name) {
    return median(other, load SUBSEP left SUBSEP name, seeds[load, left, name])
}

function title(name) {
    return name == "settled" ? "slabs, settled" : name == "unsettled" ? "slabs, not settled" : name == "mimalloc-at-once" ? "mimalloc, no delay" : name
}

function is_malloc(name) {
    return name != "settled" && name != "unsettled" && name !~ /^fixed-/
}

function versions(    text, i, name) {
    text = "Kagundis at " version["kagundis"]
    for (i = 1; i <= whos; i++) {
        name = who[i]
        if (name in version)
            text = text ", " name " " version[name]
    }
    return text (absent == "" ? "" : "; not on this machine: " absent)
}
