# The manual: clean, found by every name, true to the headers, with programs that compile.

# Lines in which roff may set another glyph than the byte: a ~ or ^ anywhere, and - or a quote in an example. Some
# systems set the byte all the same.
not_pasted='
    /^\.EX/ { example = 1 }
    /^\.EE/ { example = 0 }
    { text = $0; gsub(/\\-/, "", text) }
    !/^(\.|\047)\\"/ && (text ~ /[~^`]/ || example && text ~ /[-\047]/) { print FILENAME ": " $0 }'

check_manual() {
    local page
    if ! there man || ! there groff; then
        skip "man or groff is not there: the manual"
        return
    fi
    # minimized images have a man that only says so
    if [ -e "$prefix/share/man/man1/tilde.1" ] && [ ! -e "$(man -M "$prefix/share/man" -w 1 tilde 2>/dev/null)" ]; then
        skip "this man finds no page: the manual"
        return
    fi
    mkdir "$room/text"
    for page in $(cd "$prefix/share/man" && ls -d man?/*); do
        if [[ $(head -n 1 "$prefix/share/man/$page") == .so* ]]; then continue; fi
        check_page "$page"
    done
    same "no glyph that a reader could not paste" "" "$(cd build/man && awk "$not_pasted" tilde*)"
    check_names
    check_links
    check_values
    for page in man/*.3; do check_example "$(basename "$page" .3)"; done
    check_console
    check_used
    there mandoc || skip "mandoc is not there: its lint"
}

# A page is clean. Keeps it as text in $room/text, so wide that no example is broken.
check_page() {
    local page=$1 name
    name=$(basename "$page")
    same "man --warnings of $name" "" "$(MANWIDTH=100 man --warnings=w -M "$prefix/share/man" "${name##*.}" \
        "${name%.*}" 2>&1 >"$room/text/$name")"
    check "$name has text" test -s "$room/text/$name"
    if there mandoc; then
        same "mandoc -Tlint of $name" "" "$(mandoc -Tlint -Wwarning "$prefix/share/man/$page" 2>&1)"
    fi
}

# A name without a page of its own leads to one that has it among its names.
check_names() {
    local link name page
    for link in $(grep -l '^\.so' "$prefix"/share/man/man3/*); do
        name=$(basename "$link" .3)
        page=$(basename "$(sed 's/^\.so //' "$link")")
        check "man finds $name" man -M "$prefix/share/man" -w 3 "$name"
        check "$page has $name among its names" grep -qw "$name" <(sed -n '/^NAME/,/^LIBRARY/p' "$room/text/$page")
    done
}

# Each page of tilde that another one leads to is there.
check_links() {
    local page link section
    for page in "$room"/text/*; do
        for link in $(grep -oE '\btilde[a-z_-]*\([1-7]\)' "$page" | sort -u); do
            section=${link: -2:1}
            check "$(basename "$page") leads to $link" test -e "$prefix/share/man/man$section/${link%(*}.$section"
        done
    done
}

# Each number that a header names stands in the manual with its value.
check_values() {
    local names name value
    names=$(sed -nE 's/^ *(TILDE_[A-Z_]+) = .*/\1/p; s/^#define (TILDE_[A-Z_]+) .*/\1/p' include/tilde.h \
        include/tilde_table.h | grep -vx TILDE_VERSION)
    {
        printf '#include <stdio.h>\n#include <tilde_table.h>\nint main(void)\n{\n'
        for name in $names; do printf '    printf("%s (%%u)\\n", (unsigned)%s);\n' "$name" "$name"; done
        printf '    return 0;\n}\n'
    } >"$room/values.c"
    check "the numbers of the headers" gcc -I"$prefix/include" -o "$room/program" "$room/values.c"
    "$room/program" >"$room/printed"
    check "the headers name numbers" test "$(wc -l <"$room/printed")" -gt 20
    while IFS= read -r value; do
        check "the manual has $value" grep -qF "$value" "$room"/text/*.3
    done <"$room/printed"
}

# The program in the EXAMPLES of a page compiles, and prints what the page says: the block behind "prints".
check_example() {
    local example="$room/$1.c" compiler
    awk -v program="$example" -v printed="$room/$1.out" '
        /^[A-Z]/ { inside = $0 == "EXAMPLES" }
        !inside { next }
        /^           #include/ { state = "program" }
        /^       [^ ]/ { state = /prints$/ ? "printed" : "" }
        state == "program" { print substr($0, 12) >program }
        state == "printed" && /^           / { print substr($0, 12) >printed }' "$room/text/$1.3"
    for compiler in gcc clang; do
        there "$compiler" || continue
        built "$compiler" c99 shared "$prefix" "$example"
        same "what the example of $1(3) prints" "$(cat "$room/$1.out")" "$(cat "$room/printed")"
    done
}

# The commands in the manual of the programs, as tests/examples reads them.
check_console() {
    awk '
        /^           \$ / && !inside { print "```console"; inside = 1 }
        inside && !/^           / { print "```"; inside = 0 }
        inside { print substr($0, 12) }' "$room"/text/*.1 >"$room/examples.md"
    check "the commands in the manual" tests/examples "$room/examples.md"
}

# The commands in the manual that use the bindings, over the programs of check_told.
check_used() {
    [ -d "$room/told" ] || return 0
    same "the bindings as the manual uses them" $'b\'wind: 5\'\nHarlingen is open, members 3 14' "$(told "$(awk '
        / are used by$/ { inside = 1 }
        inside && /^           / { print substr($0, 12) }
        /^[^ ]/ { inside = 0 }' "$room/text/tilde_format.3")")"
}
