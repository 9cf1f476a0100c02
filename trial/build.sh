# How the scripts jasonrun, jasonlook, explore and chart build their programs without the proofs, and find them again. The script jasonrun reads this file;
# `top` is the folder of the repository, `name` the program's name, and find_trial and make_trial leave the program's path in `program`.
#
# A trial build is the file .trial/SUM/NAME, with a SUM of all sources and the kit. The file `kit` beside it names the kit, and is as old as the sources.

# The file that has what `rt version` writes, which takes longer; empty where it is not found.
kit_file() {
    at=$(readlink -f "$(command -v rt)") && [ -f "${at%/bin/rt}/KIT-ID" ] && echo "${at%/bin/rt}/KIT-ID"
}

is_of_kit() { [ -x "$1/$name" ] && { [ -z "$kit" ] || cmp -s "$kit" "$1/kit"; }; }
is_as_old() ( cd "$top" && is_newest "$1/kit" crates.txt crates/*/src )

sum_of_sources() (
    cd "$top"
    find crates.txt crates/*/src -type f -exec sha256sum {} + | LC_ALL=C sort | cat "$1" - | sha256sum | cut -c 1-16
)

# Whether it is of the sources of now, by their sum: `cp -r` leaves other times. Then the file gets the time at which this began, if that may be.
is_of_sources() {
    now=$(date +%s)
    [ "${1##*/}" = "$(sum_of_sources "$1/kit")" ] && { touch -d "@$now" "$1/kit" 2>/dev/null || :; }
}

find_trial() {
    kit=$(kit_file) || kit=
    for is_fresh in is_as_old is_of_sources; do
        for folder in "$top"/.trial/*; do
            if is_of_kit "$folder" && $is_fresh "$folder"; then
                program=$folder/$name
                return
            fi
        done
    done
    return 1
}

# `rt try` compiles at -O0 with AddressSanitizer, for programs 20 to 100 times slower, and keeps none. So it is called in a kit of links, whose clang does
# without both, and whose linker keeps the program. rt looks for its kit beside its own files, so these are copied. It also asks rattle for a hint beside
# the trial, which takes as long as the trial, and which nobody would see.
link_kit() {
    from=${kit%/KIT-ID}
    to=$new/links
    mkdir -p "$to/bin" "$to/toolchain/bin"
    ln -s "$from"/* "$to" 2>/dev/null || :
    ln -s "$from"/toolchain/* "$to/toolchain" 2>/dev/null || :
    ln -s "$from"/bin/* "$to/bin"
    ln -s "$from"/toolchain/bin/* "$to/toolchain/bin"
    ln -s "$from/toolchain/bin" "$to/toolchain/own"
    rm "$to"/bin/rt* "$to/bin/rattle" "$to/toolchain/bin/clang" "$to/toolchain/bin/ld.lld"
    cp "$from"/bin/rt* "$to/bin"
    printf '#!/bin/sh\nexit 1\n' >"$to/bin/rattle"
    cp "$top/trial/clang" "$top/trial/ld.lld" "$to/toolchain/bin"
    chmod +x "$to/bin/rattle" "$to/toolchain/bin/clang" "$to/toolchain/bin/ld.lld"
}

# Waits for the end of the trial, or for a file; a sign of life at a terminal every two seconds, elsewhere every thirty.
wait_for() {
    slept=0
    while [ ! -e "$1" ] && kill -0 "$try" 2>/dev/null; do
        sleep 2
        slept=$((slept + 2))
        if [ -t 2 ]; then printf . >&2; elif [ $((slept % 30)) = 0 ]; then say "building: $slept seconds"; fi
    done
    [ ! -t 2 ] || echo >&2
}

# Begins `rt try` in the program's folder, with the words behind the name of that rt.
begin_try() {
    rt=$1
    shift
    (cd "$top/crates/$name" && TMPDIR=$new/tmp exec "$rt" try -- "$@") </dev/null >"$new/log" 2>&1 9>&- &
    try=$!
}

end_try() {
    wait "$try" 2>/dev/null || :
    try=
}

# Puts a call that is short and needs no file behind the words.
with_short_call() {
    case $name in
        jasonrun) "$@" demo 1 ;;
        *) "$@" --version ;;
    esac
}

# The program that the linker of the kit of links kept; a status where there is no such kit or no such program.
build_in_links() {
    [ "$kit" ] && { link_kit || :; } 2>/dev/null && [ -x "$new/links/bin/rt" ] || return
    with_short_call begin_try "$new/links/bin/rt"
    wait_for "$new/none"
    end_try
    [ -f "$new/program" ] && install -m 755 "$new/program" "$new/$name" || return
    [ ! -e "$new/plain" ] || say 'this kit builds it in its plain way alone: the program is 20 to 100 times slower'
}

# Calls `rt try` as it is, for an endless run with a record: once the file of this record is there the program runs, so it is whole, and is copied.
catch_program() {
    if [ $name = jasonrun ]; then
        say 'nothing came of it: once more in the plain way of the kit, for a program 20 to 100 times slower'
        echo '!again. +!again <- !!again.' >"$new/endless.asl"
        begin_try rt record "$new/endless.asl" "$new/turns" --cycles 1000000
        wait_for "$new/turns"
    fi
    [ -e "$new/log" ] || fail "rt is no link into its kit, beside which KIT-ID stands: only so is $name built without the proofs; \`make\` proves and builds it"
    if [ ! -e "$new/turns" ]; then
        cat "$new/log" >&2
        fail 'the trial build ended before there was a program; its lines, if any, stand above'
    fi
    install -m 755 "$(find "$new/tmp" -name program -type f)" "$new/$name"
    kill "$try" || :
    end_try
}

build_trial() {
    mkdir "$new" "$new/tmp"
    rt version >"$new/kit"
    sum=$(sum_of_sources "$new/kit")
    program=$top/.trial/$sum/$name
    say 'building once, about two minutes on a free processor, unproved; `make` proves (README.md, "Run it")'
    build_in_links || catch_program
    with_short_call "$new/$name" >/dev/null </dev/null 9>&- || fail 'the trial build does not run on this machine'
    [ "$sum" = "$(sum_of_sources "$new/kit")" ] || fail 'a source was changed during the build: call again'
    mkdir -p "$top/.trial/$sum"
    mv "$new/$name" "$new/kit" "$top/.trial/$sum"
    find "$top/.trial" -mindepth 1 -maxdepth 1 -type d ! -name "$sum" ! -name "${new##*/}" -exec rm -rf {} +
}

# Stops a build that is under way and leaves nothing of it.
clean() {
    [ -z "$try" ] || kill "$try" 2>/dev/null || :
    rm -rf "$new"
}

# One call at a time builds, and the others wait for it, and find what it built.
make_trial() {
    command -v rt >/dev/null || fail 'rt, the command of the Rattle kit, is not in your path, and builds it: put the folder bin of the kit there (README.md, "Run it")'
    new=$top/.trial/.new.$$
    try=
    trap 'status=$? && clean && [ $status -gt 125 ] || exit 125' EXIT
    trap 'exit 129' HUP
    trap 'exit 130' INT
    trap 'exit 143' TERM
    { mkdir -p "$top/.trial" && [ -w "$top/.trial" ]; } 2>/dev/null ||
        fail "you may not write into $top, where the build is kept: call it once as the owner of that folder, or copy the folder with cp -a"
    exec 9>"$top/.trial/lock"
    flock -n 9 || { say 'another call is building it: waiting' && flock 9; }
    if ! find_trial; then
        rm -rf "$top"/.trial/.new.*
        build_trial
        clean
    fi
    trap - EXIT HUP INT TERM
    exec 9>&-
}
