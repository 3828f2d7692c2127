# The run program, started, and what it reports put into words. To be sourced by the launcher.

# Compiled Rattle is x86-64 code: elsewhere it runs under an emulator, with the kit's own loader and C library.
start() {
    if [ "$(uname -m)" = x86_64 ]; then
        exec "$root/$program"
    fi
    kit=$(dirname "$(rt doc)")/toolchain
    exec qemu-x86_64 "$kit/lib/ld-linux-x86-64.so.2" --library-path "$kit/lib" "$root/$program"
}

unwritten='blockrun: the output could not be written'
unread='blockrun: nobody reads the output'

# The run program has no exit status of its own. It reports a failed read or write and a refused line on standard error.
run() { # [FILE]
    (: 3>&1) 2>/dev/null || fail "standard output is closed"
    exec 3>&1
    status=0
    reports=$(start 2>&1 >&3 3>&- 4<&-) || status=$?
    if reader_is_gone "$reports"; then
        status=141
        reports=$(printf '%s\n' "$reports" | grep -vxF "$unwritten" || :)
    fi
    reports=$(printf '%s\n' "$reports" | grep -vxF "$unread" || :)
    while IFS= read -r report; do
        say_report "$report" "$@"
    done <<REPORTS
$reports
REPORTS
    case $reports in
    *'blockrun: the '*) status=1 ;;
    *'blockrun: refused '*) [ "$status" -ne 0 ] || status=3 ;;
    esac
    exit "$status"
}

# The system ends a program whose output nobody reads any more by signal 13, unless that is ignored; Rattle's programs ignore it
# always, and report a failed write.
reader_is_gone() { # REPORTS
    case $1 in
    *"$unread"*) ! (sh -c 'kill -s PIPE $$') 2>/dev/null ;;
    *) return 1 ;;
    esac
}

say_report() { # REPORT [FILE]
    case $1 in
    'blockrun: refused '*) printf 'tsendurkho: %s\n' "$(in_words "${1#blockrun: refused }" "${2:-}")" >&2 || : ;;
    ?*) printf '%s\n' "$1" >&2 || : ;;
    esac
}

# The longest line of a run file has 8,004 characters: of a line far longer than that, not all characters are counted.
longest=100000

in_words() { # REFUSAL FILE
    number=${1#ffff}
    if [ -f "$2" ]; then
        bytes_of_line 1 "$2"
        bytes_of_line "$((0x${number%??}))" "$2"
    fi 2>/dev/null | LC_ALL=C awk -v report="$1" -v most="$longest" -f "$root/launch/refusal.awk"
}

bytes_of_line() { # NUMBER FILE
    echo line
    tail -n "+$1" <"$2" | head -n 1 | head -c "$((longest + 1))" | od -A n -v -t u1
}

# Opens the file that is to be the standard input.
open_input() { # FILE
    [ -e "$1" ] || wrong run "there is no file '$1'"
    [ ! -d "$1" ] || wrong run "'$1' is a directory, and a file is wanted"
    { command exec <"$1"; } 2>/dev/null || wrong run "'$1' cannot be read"
}

is_long() { # FILE
    [ -f "$1" ] && [ "$(wc -c <"$1")" -gt 1000000 ]
}

# Says how much has been read of the file that is open as 4. All who share one opening of a file share the place in it. The
# next line of output, which is longer, overwrites this.
say_place() { # BYTES
    read -r _ place </proc/self/fdinfo/4
    printf '%3d %%\r' $((100 * place / $1)) >&2
}

# Says on standard error, a terminal, how far the file that is the standard input has been read, until this shell ends.
show_progress() { # FILE
    size=$(wc -c <"$1")
    exec 4<&0
    say_place "$size"
    while sleep 1 && kill -0 $$ 2>/dev/null; do say_place "$size"; done >/dev/null &
    saying=$!
    trap '{ kill $saying; wait $saying; } 2>/dev/null || :; printf "\r\033[K" >&2' EXIT
    trap 'exit 130' HUP INT QUIT TERM
}
