#!/usr/bin/env bash
# Refuses a crate that stands on one of a later line of crates.txt, a layer whose heading isn't at its place, and a crate that
# docs/ARCHITECTURE.md doesn't have under the same heading.
#
# crates.txt and docs/ARCHITECTURE.md have the same layers, lowest first: in crates.txt as a remark, in the document as a heading of
# the third level, with a row for each crate. A line for each thing that is wrong says what to do. The status is 0 where none is.
#
#   checks/layers.sh [FOLDER]      the repository in FOLDER, and without it this one
set -u
top="${1:-$(cd "$(dirname "$(readlink -f "${BASH_SOURCE[0]}")")/.." && pwd)}"

awk -v layers="Ground,Disk and log,Pages,Spaces,Structures,Objects and transactions,Store,Library,Program,Tests" '
    function wrong(what) {
        print "layers: FAILED: " what
        failures++
    }

    # A heading of a layer comes right behind the one of the layer below.
    function enters(heading, place) {
        if (heading != names[++reached]) wrong(place ": the layer " heading " stands where " names[reached] " belongs")
        layer = heading
    }

    BEGIN {
        count = split(layers, names, ",")
        for (i = 1; i <= count; i++) is_layer[names[i]] = 1
    }

    # No layer is left out at the end of a file.
    function ends() {
        while (reached < count) wrong(file ": the layer " names[++reached] " has no heading")
    }

    FNR == 1 {
        if (file != "") ends()
        file = FILENAME == ARGV[1] ? "crates.txt" : "ARCHITECTURE.md"
        reached = 0
        layer = ""
    }

    file == "crates.txt" && /^# / {
        heading = substr($0, 3)
        if (heading in is_layer) enters(heading, file)
    }

    file == "crates.txt" && /^[a-z]/ {
        line = $0
        sub(/#.*/, "", line)
        crate = line
        sub(/[ :].*/, "", crate)
        sub(/^[^:]*:?/, "", line)
        if (layer == "") wrong(file ": " crate " stands above the first layer")
        if (crate in line_of) wrong(file ": " crate " has two lines: keep one")
        layer_of[crate] = layer
        uses[crate] = line
        order[++crates] = crate
        line_of[crate] = FNR
    }

    file == "ARCHITECTURE.md" && /^### / {
        heading = substr($0, 5)
        if (heading in is_layer) enters(heading, file)
    }

    file == "ARCHITECTURE.md" && /^## / {
        layer = ""
    }

    file == "ARCHITECTURE.md" && layer != "" && /^\| `/ {
        crate = $2
        gsub(/`/, "", crate)
        row_of[crate] = layer
    }

    END {
        ends()
        for (i = 1; i <= crates; i++) {
            crate = order[i]
            many = split(uses[crate], below, /[ ,]+/)
            for (j = 1; j <= many; j++) {
                used = below[j]
                if (used in line_of && line_of[used] >= line_of[crate])
                    wrong("crates.txt: " crate " (" layer_of[crate] ") stands on " used " (" layer_of[used] "), whose line comes later: move one of them")
            }
            if (!(crate in row_of)) wrong("ARCHITECTURE.md: no row names " crate ": write one under " layer_of[crate])
            else if (row_of[crate] != layer_of[crate])
                wrong("ARCHITECTURE.md: " crate " has its row under " row_of[crate] ", and its line in crates.txt under " layer_of[crate])
        }
        for (crate in row_of)
            if (!(crate in line_of)) wrong("ARCHITECTURE.md: a row names " crate ", which crates.txt lacks")
        if (!failures) print "layers: passed: " crates " crates in " count " layers"
        exit failures > 0
    }
' "$top/crates.txt" "$top/docs/ARCHITECTURE.md"
