# The libraries: the proved objects as rt built them, and a shared library that loads anywhere.

check_library() {
    local shared="$prefix/lib/libtilde.so.$version" archive member
    local archives=(crates/tilde/out/libtilde.a crates/tilde_windows/out/libtilde_windows.a)
    for archive in "${archives[@]}"; do
        for member in $(ar t "$archive"); do
            check "$member is as rt built it" \
                cmp <(ar p "$archive" "$member") <(ar p "$prefix/lib/libtilde.a" "$member")
        done
    done
    same "the members of libtilde.a" "$( (for archive in "${archives[@]}"; do ar t "$archive"; done
        echo exports.o) | sort)" "$(ar t "$prefix/lib/libtilde.a" | sort)"
    if there readelf; then
        readelf -dW "$shared" >"$room/dynamic"
        check "the soname" grep -q 'SONAME.*\[libtilde\.so\.0\]' "$room/dynamic"
        same "the libraries that it needs" "[libc.so.6]" "$(sed -n 's/.*(NEEDED).*\(\[.*\]\)/\1/p' "$room/dynamic")"
        same "no text relocations" "" "$(grep TEXTREL "$room/dynamic" || true)"
        same "no executable stack" "RW" "$(readelf -lW "$shared" | awk '$1 == "GNU_STACK" { print $7 }')"
    else
        skip "readelf is not there: what libtilde.so and the programs need is not looked at"
    fi
    same "libtilde.so.0 and libtilde.so lead to it" "$shared $shared" \
        "$(readlink -f "$prefix/lib/libtilde.so.0" "$prefix/lib/libtilde.so" | xargs)"
    check_exports "$shared"
}

# What is exported is what the manual names, and what a header has besides is for the header alone.
check_exports() {
    nm -D --defined-only "$1" | awk '{ print $3 }' | sort >"$room/exported"
    same "the exported functions have their pages" "$(cd "$prefix/share/man/man3" && ls | sed 's/\.3$//' |
        grep -vx tilde_table | sort)" "$(cat "$room/exported")"
    same "only tilde_ is exported" "" "$(grep -v '^tilde_' "$room/exported" || true)"
    same "no public function of the headers is missing" "" "$(awk '
        FILENAME ~ /exported$/ { exported[$1] = 1; next }
        /^ *\/\*/ { alone = 0 }
        / alone[:,.]/ { alone = 1 }
        match($0, /^[a-z].*[ *]tilde_[a-z_]+\(/) {
            name = substr($0, 1, RLENGTH - 1)
            sub(/.*[ *]/, "", name)
            if (!(name in exported) && !alone) print name
        }' "$room/exported" include/tilde.h include/tilde_table.h)"
}
