# What is installed below a PREFIX and removed again. To be sourced by the launcher. The pkg-config file is the record of an
# install: a comment in it names the files that were put there, and another the folders that were made for them.

record=lib/pkgconfig/tsendurkho.pc
files="bin/blockrun include/tsendurkho.h lib/libtsendurkho.a $record"

# Sets `prefix`, which goes into the pkg-config file as it is, and `place`, the folder below which the files go now.
below() { # COMMAND [PREFIX]
    prefix=${2-/usr/local}
    case $prefix in
    '') wrong "$1" "PREFIX is empty" ;;
    *[!A-Za-z0-9/._+-]*) wrong "$1" "PREFIX may have only letters, digits and / . _ + -: '$prefix'" ;;
    /*) ;;
    *) wrong "$1" "PREFIX has to begin with /: '$prefix'" ;;
    esac
    place=${DESTDIR:-}$prefix
    [ -d "$place" ] || [ ! -e "$place" ] || wrong "$1" "PREFIX is not a folder: '$prefix'"
}

# What the record names, if there is one.
recorded() { # files put | folders made
    [ ! -f "$place/$record" ] || sed -n "s/^# $1 by install: //p" "$place/$record"
}

# A file that is there already and is not in the record is somebody else's.
leave_others_files() {
    put=$(recorded 'files put')
    for file in $files; do
        case " $put " in
        *" $file "*) ;;
        *) [ ! -e "$place/$file" ] && [ ! -L "$place/$file" ] ||
            fail "'$place/$file' is there, and install did not put it there, so nothing is installed" ;;
        esac
    done
}

# The record is written first, so that an interrupted install can be removed too.
install_below() {
    leave_others_files
    provide "$program" "$archive"
    made=$(recorded 'folders made')
    for folder in bin include lib lib/pkgconfig; do
        [ -d "$place/$folder" ] || made="$folder $made"
    done
    mkdir -p "$place/lib/pkgconfig" "$place/bin" "$place/include"
    write_record
    install -m 755 "$root/$program" "$place/bin/blockrun"
    install -m 644 "$root/include/tsendurkho.h" "$place/include/tsendurkho.h"
    install -m 644 "$root/$archive" "$place/lib/libtsendurkho.a"
    [ "$(uname -m)" = x86_64 ] || echo "tsendurkho: the archive and blockrun are x86-64 code" >&2
}

# Files of an earlier install that this one does not have stay in the record.
write_record() {
    # shellcheck disable=SC2046,SC2086
    put=$(printf '%s\n' $files $(recorded 'files put') | LC_ALL=C sort -u | tr '\n' ' ')
    sed "s|@FILES@|${put% }|; s|@MADE@|${made% }|; s|@PREFIX@|$prefix|; s|@VERSION@|$(cat "$root/VERSION")|" \
        "$root/include/tsendurkho.pc.in" >"$place/$record.new"
    chmod 644 "$place/$record.new"
    mv "$place/$record.new" "$place/$record"
}

# The record goes last, so that an interrupted uninstall can be done again.
uninstall_below() {
    put=$(recorded 'files put')
    made=$(recorded 'folders made')
    [ -n "$put" ] || fail "no install is recorded in '$place/$record', so nothing is removed"
    case " $put $made" in
    *' /'* | *..* | *[!A-Za-z0-9/._+\ -]*) fail "the record '$place/$record' is damaged, so nothing is removed" ;;
    esac
    for file in $put; do
        [ "$file" = "$record" ] || rm -f "$place/$file"
    done
    rm -f "$place/$record"
    for folder in $made; do
        rmdir "$place/$folder" 2>/dev/null || :
    done
}
