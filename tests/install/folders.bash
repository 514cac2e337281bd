# What is installed where, and that nothing of it is left after make uninstall.

check_folders() {
    local stage="$room/stage"
    local expected
    expected=$(sed "s/VERSION/$version/" tests/install/files)
    same "the files of an installation" "$expected" "$(files_of "$prefix")"
    same "the programs are executable" "bin/tilde bin/tilde-jobs" \
        "$(cd "$prefix" && find . -type f -perm -111 -printf '%P\n' | sort | xargs)"
    same "all can be read by all" "" "$(find "$prefix" -type f ! -perm -444)"
    check "make install with DESTDIR" make install PREFIX=/usr "DESTDIR=$stage"
    same "the files below DESTDIR" "$(sed 's,^,usr/,' <<<"$expected")" "$(files_of "$stage")"
    same "no file below DESTDIR names it" "" "$(grep -rlF "$stage" "$stage" || true)"
    check "make install with other folders" make install "PREFIX=$room/other" "LIBDIR=$room/other/lib64" \
        "MANDIR=$room/other/man"
    same "the files with other folders" "$(sed 's,^lib/,lib64/,; s,^share/man/,man/,' <<<"$expected" | sort)" \
        "$(files_of "$room/other")"
    check "LIBDIR in tilde.pc" grep -qx "libdir=$room/other/lib64" "$room/other/lib64/pkgconfig/tilde.pc"
    same "the version is that of the header" "" "$(make -n install VERSION=9.9 | grep -F 9.9 || true)"
    check "the version in tilde.pc" grep -qx "Version: $version" "$room/other/lib64/pkgconfig/tilde.pc"
}

# refused WHAT WORDS ARGUMENT..: make says these words, and does nothing.
refused() {
    local what=$1 words=$2 said
    shift 2
    if said=$(make "$@" 2>&1); then fail "$what is not refused"; fi
    [[ $said == *"$words"* ]] || fail "$what: make says $said"
    checks=$((checks + 1))
}

check_removal() {
    refused "a folder with a quote" "has a ' in its name" install "PREFIX=$room/it's"
    refused "a folder that is not absolute" "PREFIX has to begin with /" install PREFIX=here
    refused "a compiler that is not there" "no-such-cc is not there" CC=no-such-cc
    check_without_rt
    echo "other" >"$prefix/bin/other"
    echo "other" >"$prefix/share/man/man3/other.3"
    check "make uninstall" make uninstall "PREFIX=$prefix"
    same "files of others stay, and no other" $'bin/other\nshare/man/man3/other.3' "$(files_of "$prefix")"
    check "the folder of the bindings is removed" test ! -e "$prefix/share/tilde"
    check "make uninstall with DESTDIR" make uninstall PREFIX=/usr "DESTDIR=$room/stage"
    same "no file is left below DESTDIR" "" "$(files_of "$room/stage")"
    check "make uninstall twice" make uninstall PREFIX=/usr "DESTDIR=$room/stage"
}

# Archives that are up to date need no rt; others do, and make says so and leaves them.
check_without_rt() {
    local program bare="$room/bare"
    mkdir "$bare"
    for program in bash sh sed find uname gcc make awk grep echo mkdir; do
        ln -s "$(command -v "$program")" "$bare/$program"
    done
    same "make calls neither rt nor gcc again" "" "$(make -n | grep -E '^(cd .* && rt|gcc) ' || true)"
    same "what rt proves after a change" "cd crates/jobs && rt run </dev/null
cd crates/tilde && rt lib
cd crates/tilde_windows && rt lib" "$(make -n -W crates.txt | grep '^cd .* && rt ')"
    cp crates/tilde/out/libtilde.a "$room/before.a"
    PATH="$bare" refused "sources newer than the archives, without rt" "install the Rattle kit" -W crates.txt
    check "the archive is still there" cmp "$room/before.a" crates/tilde/out/libtilde.a
    cp -r Makefile crates.txt include tools man docs bindings tilde.pc.in "$bare"
    find crates -name out -prune -o -type f -exec cp --parents -t "$bare" {} +
    PATH="$bare" refused "no archives and no rt" "crates/jobs/out/jobs is missing" -C "$bare" -j 4
    same "nothing is built before that" "" "$(ls -d "$bare/build" 2>/dev/null || true)"
}
