# Proves and builds the run program and the archive if they are not up to date. To be sourced by the launcher.
#
# rt leaves what it builds of a crate in the crate's out/, and keeps there what it has proved; from there a product is copied
# into target/. Asking rt takes seconds even if nothing changed, and it builds an archive again each time. So target/made has,
# for each of the two products, the sums of its sources and of itself, written when it was complete: a product whose sums
# differ is built again. An interrupted build leaves no such note.

program=target/bin/blockrun
archive=target/staticlib/libtsendurkho.a

# One sum of all that a proof depends on.
sum_of_sources() {
    (cd "$root" && find crates crates.txt \( -name must-fail -o -name out \) -prune -o -type f -exec sha256sum {} + |
        LC_ALL=C sort | sha256sum)
}

is_made() { # PRODUCT
    [ -f "$root/$1" ] && { sum_of_sources && sha256sum <"$root/$1"; } | cmp -s - "$root/target/made/${1##*/}"
}

not_made() { # PRODUCT...
    for product; do
        is_made "$product" || echo "$product"
    done
}

need_rt() { # WHAT CANNOT BE DONE WITHOUT IT
    command -v rt >/dev/null || fail "$1: the Rattle kit's rt is not on the PATH"
}

# Makes those products that were not made from these sources. No product has a space in its name.
provide() { # PRODUCT...
    missing=$(not_made "$@")
    [ -n "$missing" ] || return 0
    need_rt "$(names_of "$@") cannot be proved and built"
    wait_for_others
    # shellcheck disable=SC2086
    missing=$(not_made $missing)
    # shellcheck disable=SC2086
    [ -z "$missing" ] || make $missing
    exec 9<&-
}

# Ctrl-C clears the line on the terminal before it ends the launcher.
make() { # PRODUCT...
    time=$(expected_time "$@")
    announce "proving $(names_of "$@"), $time"
    [ ! -t 2 ] || trap 'clear_line; trap - INT; kill -INT $$' INT
    mkdir -p "$root/target/made"
    for product; do
        sources=$(sum_of_sources)
        build "$product" || fail_with_log "$(names_of "$product") could not be built"
        { printf '%s\n' "$sources" && sha256sum <"$root/$product"; } >"$root/target/made/${product##*/}"
    done
    clear_line
    trap - INT
}

names_of() { # PRODUCT...
    for product; do
        [ "$product" = "$program" ] && echo "the run program" || echo "the archive"
    done | paste -s -d '&' - | sed 's/&/ and /'
}

crate_of() { # PRODUCT
    [ "$1" = "$program" ] && echo blockrun || echo tsendurkho
}

# Where rt leaves it.
built_as() { # PRODUCT
    name=${1##*/}
    echo "crates/$(crate_of "$1")/out/$name"
}

# Waits for other builds here, and for provers that an interrupted build has left running.
wait_for_others() {
    exec 9<"$root"
    if command -v flock >/dev/null && ! flock -n 9; then
        echo "tsendurkho: waiting for another build" >&2
        flock 9 || :
    fi
}

# On a terminal, a line that is overwritten later.
announce() { # TEXT
    if [ -t 2 ]; then
        printf '\r\033[Ktsendurkho: %s' "$1" >&2
    else
        printf 'tsendurkho: %s\n' "$1" >&2
    fi
}

clear_line() {
    [ ! -t 2 ] || printf '\r\033[K' >&2
}

# How long it takes, by the table's seconds: the products' own crates, and those before them that rt has to prove.
expected_time() { # PRODUCT...
    asked=$(for product; do crate_of "$product"; done)
    { kept_crates && cat "$root/crates.txt" "$root/docs/ECONOMY.md"; } | awk -v asked="$(echo $asked)" -f "$root/launch/time.awk"
}

# The libraries that rt has proved and built, and that have no later file.
kept_crates() {
    for stamp in "$root"/crates/*/out/rlib/stamp; do
        crate=${stamp%/out/rlib/stamp}
        later=$(find "$crate" -mindepth 1 \( -name must-fail -o -name out \) -prune -o -newer "$stamp" -print 2>&1 | head -n 1)
        [ -n "$later" ] || echo "${crate##*/}"
    done
}

# rt ends with 2 if it cannot read a library that it built before: then those are thrown away, and rt asked once more.
build() { # PRODUCT
    status=0
    ask_rt "$1" || status=$?
    if [ "$status" -eq 2 ]; then
        rm -rf "$root"/crates/*/out/rlib
        status=0
        ask_rt "$1" || status=$?
    fi
    [ "$status" -eq 0 ] && mkdir -p "$root/${1%/*}" && cp "$root/$(built_as "$1")" "$root/$1"
}

log=$root/target/build.log

# What rt prints is kept, and shown if it fails. Its status comes through a pipe of its own, which rt does not have: a prover
# that Ctrl-C leaves running would keep the launcher waiting. rt builds a program only to run it, here on the gate's input.
ask_rt() { # PRODUCT
    [ "$1" = "$program" ] && asked=run input=stdin || asked=lib input=/dev/null
    at=$root/crates/$(crate_of "$1")
    mkdir -p "$root/target"
    ended=$({ { (cd "$at" && rt "$asked" <"$input") 2>&1 5>&- && echo 0 >&5 || echo $? >&5; } | keep_log; } 5>&1 >/dev/null)
    return "${ended:-1}"
}

# On a terminal each crate is named once it is proved: rt prints `crate NAME: ..` and then `logic=proved ..`.
keep_log() {
    if [ -t 2 ]; then
        tee "$log" | while read -r word crate _; do
            case $word in
            crate) proving=${crate%:} ;;
            logic=proved) announce "proving, $time in all; $proving is proved" ;;
            esac
        done
    else
        cat >"$log"
    fi
}

fail_with_log() { # MESSAGE
    clear_line
    tail -n 40 "$log" >&2
    fail "$1; all that rt printed is in target/build.log"
}
