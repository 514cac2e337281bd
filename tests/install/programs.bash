# Programs that others build with the installed headers and libraries.

warnings=(-Wall -Wextra -Wpedantic -Wconversion -Wshadow -Werror)

# flags FROM WORD..: what pkg-config answers to these words about the installation in FROM, as words of a shell.
flags() {
    local from=$1
    shift
    if there pkg-config; then
        PKG_CONFIG_PATH="$from/lib/pkgconfig" pkg-config "$@" tilde
    else
        printf '%q ' "-I$from/include" "-L$from/lib" -ltilde
    fi
}

# built COMPILER STANDARD HOW FROM SOURCE..: builds a program against the installation in FROM, shared or static, runs
# it and keeps what it prints in $room/printed.
built() {
    local compiler=$1 standard=$2 how=$3 from=$4 language=c
    local needs
    shift 4
    [[ $standard != c++* ]] || language=c++
    rm -f "$room/program"
    if [ "$how" = static ]; then
        eval "words=(-static $(flags "$from" --static --cflags --libs))"
    else
        eval "words=($(flags "$from" --cflags --libs))"
    fi
    check "$compiler -std=$standard, $how: $*" "$compiler" -std="$standard" "${warnings[@]}" -o "$room/program" \
        -x "$language" "$@" -x none "${words[@]}"
    if there readelf; then
        needs=$(readelf -dW "$room/program" | grep -c 'NEEDED.*libtilde\.so\.0' || true)
        same "$how means so" "$([ "$how" = static ] && echo 0 || echo 1)" "$needs"
    fi
    LD_LIBRARY_PATH="$from/lib" "$room/program" >"$room/printed" || fail "$*, built by $compiler, ends with status $?"
}

check_programs() {
    local compiler standard how line='Harlingen     1013 hPa, 3 gusts'
    there pkg-config || skip "pkg-config is not there: programs are built with the folders alone"
    for compiler in gcc g++ clang clang++; do
        there "$compiler" || { skip "$compiler is not there"; continue; }
        standard=c99
        [[ $compiler != *++ ]] || standard=c++17
        for how in shared static; do
            built "$compiler" $standard $how "$prefix" examples/first.c
            same "what examples/first.c prints" "$line" "$(cat "$room/printed")"
            built "$compiler" $standard $how "$prefix" tests/install/unit.c tests/install/other_unit.c
            same "what two units with both headers print" "3 values, 3 values, tilde $version" "$(cat "$room/printed")"
        done
    done
    check_space
    check_bindings
    check_told
    same "the installed tilde" "$version" "$("$prefix/bin/tilde" --version | awk '{ print $NF }')"
    same "the line of the installed tilde" "$line" \
        "$("$prefix/bin/tilde" try '~12a ~5d hPa, ~d gust~:p' '"Harlingen"' 1013 3)"
    same "a refusal is not on standard output" "" "$("$prefix/bin/tilde" try '~d' '"calm"' 2>/dev/null || true)"
    same "tilde-jobs takes no options" ff "$(echo wind | "$prefix/bin/tilde-jobs" --help)"
    check "the installed tilde is that of build/" cmp build/tilde "$prefix/bin/tilde"
    check "the installed tilde-jobs is as rt built it" cmp crates/jobs/out/jobs "$prefix/bin/tilde-jobs"
}

# A prefix with a space works, for those who let the shell read what pkg-config says.
check_space() {
    local prefix="$room/with space"
    check "make install with a space" make install "PREFIX=$prefix"
    built gcc c99 shared "$prefix" examples/first.c
    built gcc c99 static "$prefix" examples/first.c
    if there pkg-config; then
        same "the folder of the bindings with a space" "$prefix/share/tilde" "$(flags "$prefix" --variable=bindings)"
    fi
    check "make uninstall with a space" make uninstall "PREFIX=$prefix"
    same "no file is left" "" "$(files_of "$prefix")"
}

# The bindings stand where tilde.pc says, and Python finds the library from there.
check_bindings() {
    local binding folder="$prefix/share/tilde"
    check "the folder of the bindings in tilde.pc" grep -qx "bindings=$folder" "$prefix/lib/pkgconfig/tilde.pc"
    for binding in tilde.py tilde.f90; do
        check "the installed $binding is that of bindings/" cmp "bindings/$binding" "$folder/$binding"
    done
    there python3 || { skip "python3 is not there: the installed tilde.py"; return; }
    same "a line by the installed tilde.py" "b'Harlingen: 3 gusts'" "$(env -u TILDE_LIBRARY \
        -u PYTHONDONTWRITEBYTECODE -u PYTHONPYCACHEPREFIX -u LD_LIBRARY_PATH PYTHONPATH="$folder" \
        python3 -c 'import tilde; print(tilde.format("~a: ~d gust~:p", "Harlingen", 3))')"
    check "Python keeps something for uninstall to remove" test -d "$folder/__pycache__"
}

# What a program prints that these commands build and run: program.c, program.f90 or program.py.
told() (
    cd "$room/told"
    rm -f a.out
    unset TILDE_LIBRARY LD_LIBRARY_PATH
    export PKG_CONFIG_PATH="$prefix/lib/pkgconfig"
    eval "$1"
    [ ! -e a.out ] || LD_LIBRARY_PATH="$prefix/lib" ./a.out
)

# The commands that make install says make programs in the three languages; those for the bindings are at the head of
# these too.
check_told() {
    local program commands
    for program in pkg-config cc gfortran python3; do
        there "$program" || { skip "$program is not there: what make install says"; return; }
    done
    mkdir "$room/told"
    cp examples/first.c "$room/told/program.c"
    sed -n '/^!     program/,/^!     end program/s/^!     //p' bindings/tilde.f90 >"$room/told/program.f90"
    echo 'import tilde; print(tilde.format("~a: ~d", "wind", 5))' >"$room/told/program.py"
    mapfile -t commands < <(sed -n '/ is installed\. /,$s/^  //p' "$room/installed")
    same "what make install says" 3 "${#commands[@]}"
    same "a program in C" 'Harlingen     1013 hPa, 3 gusts' "$(told "${commands[0]}")"
    same "a program in Fortran" 'Harlingen is open, members 3 14' "$(told "${commands[1]}")"
    same "a program in Python" "b'wind: 5'" "$(told "${commands[2]}")"
    check "the head of tilde.f90" grep -qxF "!     ${commands[1]}" bindings/tilde.f90
    check "the head of tilde.py" grep -qxF "    ${commands[2]}" bindings/tilde.py
}
