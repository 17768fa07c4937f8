# For the checks of documents: the names that a document gives and that are not there, one to a line.
missing_names() { # DOCUMENT: `Page.name` of the definition or its laws, `asking.Page.name` of the asking side's; `Type`, `Type` (src) of the types that code shares
    local name page item
    for name in $(grep -oE '`[A-Z][A-Za-z]*\.[^`]+`' "$1" | tr -d '`' | sort -u); do
        page=${name%%.*}
        item=${name#*.}
        grep -qsE "^ *((abbrev|unfoldable) )?(pub )?((record|data) )?$item( |$)" "crates/bsmp/specs/$page.antt" "crates/bsmp/proofs/$page.antt" ||
            echo "no $item in a page $page"
    done
    for name in $(grep -oE '`asking\.[A-Z][A-Za-z]*\.[^`]+`' "$1" | tr -d '`' | sort -u); do
        page=${name#asking.}
        item=${page#*.}
        page=${page%%.*}
        grep -qsE "^ *((abbrev|unfoldable) )?(pub )?((record|data) )?$item( |$)" "crates/asking/specs/$page.antt" "crates/asking/proofs/$page.antt" ||
            echo "no $item in a page $page of asking"
    done
    for name in $(grep -oE '(`[A-Za-z]+`, )*`[A-Za-z]+` \(src\)' "$1" | grep -oE '`[A-Za-z]+`' | tr -d '`' | sort -u); do
        grep -qE "pub (struct|enum) $name\b" crates/bsmp/src/lib.rt || echo "no type $name in crates/bsmp/src/lib.rt"
    done
}
