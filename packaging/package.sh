#!/bin/sh
top=$(cd "$(dirname "$0")/.." && pwd) || exit 1

help() {
    cat << 'END'
Builds Debian's package of the program and its tools: package.sh [--unproved FILE] [FOLDER]

Writes tapebox_VERSION_amd64.deb into FOLDER, or the current one, and prints its path. VERSION is the program's own, which CHANGELOG.md has to
begin with. The package has the proved program as it is, byte for byte, a manual page and completion for bash of its own help, the dissector
in Wireshark's folder, the tools, samples and pages, the page for a browser if web/build has built it, and units for systemd. If clib/build has built the
library from the same tree, it has that too, static and shared, with its header, its examples and a file for pkg-config. The same tree gives the same
bytes. dpkg-deb, gzip and Python are needed.

    --unproved FILE   packs this program in the place of the proved one, and says so: VERSION~unproved

Statuses: 0 if it is built; 1 if the program was not proved from exactly this tree, or a step fails; 2 if the words are others.
END
}

fail() {
    echo "package.sh: $*" >&2
    exit 1
}

usage() {
    echo "usage: package.sh [--unproved FILE] [FOLDER]" >&2
    exit 2
}

program=
mark=
case ${1-} in
    -h | --help) help; exit ;;
    --unproved) [ $# -ge 2 ] || usage; program=$2; mark=~unproved; shift 2 ;;
esac
[ $# -le 1 ] || usage
case ${1-} in -*) usage ;; esac
to=${1-.}
[ -d "$to" ] || fail "$to: no folder"
command -v dpkg-deb > /dev/null || fail "there is no dpkg-deb"
if [ -z "$program" ]; then
    program=$("$top/run" --which tapebox 2> /dev/null) || fail "there is no program"
    case $program in *.draft) fail "the program is not proved: ./run --prove does that; or name one by --unproved" ;; esac
fi
[ -x "$program" ] || fail "$program: no program"

pages() {
    "$top/packaging/program_pages.py" "$@"
}

version=$(pages version "$program") || exit 1
version=$version$mark
date=$(sed -n "s/^## .* (\(....-..-..\))$/\1/p;T;q" "$top/CHANGELOG.md")
# All in the package is of this second.
SOURCE_DATE_EPOCH=$(date -u -d "$date 12:00" +%s) || fail "CHANGELOG.md: it begins with no date"
export SOURCE_DATE_EPOCH
work=$(mktemp -d) || exit 1
trap 'rm -rf "$work"' EXIT
trap 'exit 1' HUP INT TERM
root=$work/root

# Puts files into a folder of the package, which anyone may read: put MODE FOLDER FILE..
put() {
    mode=$1
    folder=$root/$2
    shift 2
    install -d -m 755 "$folder" && install -m "$mode" "$@" "$folder" || exit 1
}

# Puts what a command writes there, packed: packed FILE COMMAND..
packed() {
    file=$root/$1
    shift
    mkdir -p "$(dirname "$file")" && "$@" > "$work/text" && gzip -9n < "$work/text" > "$file" || exit 1
}

umask 022
# The program reads beside itself how it was built.
put 755 usr/lib/tapebox "$program"
[ "$(basename "$program")" = tapebox ] || mv "$root/usr/lib/tapebox/$(basename "$program")" "$root/usr/lib/tapebox/tapebox" || exit 1
if [ -f "$program.build" ]; then cat "$program.build" > "$root/usr/lib/tapebox/tapebox.build" || exit 1; fi
mkdir -p "$root/usr/bin" && ln -s ../lib/tapebox/tapebox "$root/usr/bin/tapebox" || exit 1

packed usr/share/man/man1/tapebox.1.gz pages man "$program"
packed usr/share/doc/tapebox/changelog.gz pages changelog "$program" --version "$version"
mkdir -p "$root/usr/share/bash-completion/completions" || exit 1
pages completion "$program" > "$root/usr/share/bash-completion/completions/tapebox" || exit 1

put 644 usr/lib/x86_64-linux-gnu/wireshark/plugins "$top/tools/tapebox.lua"
put 644 lib/systemd/system "$top"/packaging/*.service
for tool in board.py day_file.py diff.py import.py plot_day.py relay.py run_day.sh send_day.py split_day.py tape_from_redis.py tape_to_redis.py; do
    put 755 usr/share/tapebox/tools "$top/tools/$tool"
done
put 644 usr/share/tapebox/tools "$top/tools/program.py"
put 644 usr/share/tapebox/samples "$top"/samples/*.*
put 644 usr/share/tapebox/samples/mappings "$top"/samples/mappings/*
for file in board.html board.js chart.js table.js tapebox.css tapebox.html; do
    # The page for a browser is there once it is built.
    if [ -f "$top/web/$file" ]; then put 644 usr/share/tapebox/web "$top/web/$file"; fi
done
put 644 usr/share/doc/tapebox "$top/README.md" "$top/packaging/copyright"
put 644 usr/share/doc/tapebox/docs "$top"/docs/*
ln -s ../../tapebox/samples "$root/usr/share/doc/tapebox/examples" || exit 1
put 644 usr/share/lintian/overrides "$top/packaging/tapebox"
install -d -m 755 "$root/etc/tapebox" || exit 1

# The library, proved as the program is. An unproved program has the one that was built last.
library=$top/crates/tapebox_c/out/libtapebox_c.a
if { [ -n "$mark" ] && { [ -f "$library" ] || [ -f "$library.draft" ]; }; } || cmp -s "$program.tree" "$library.tree"; then
    "$top/clib/build" link "$work/clib" > /dev/null || fail "the library was not linked"
    put 644 usr/include "$top/clib/tapebox.h"
    put 644 usr/lib/x86_64-linux-gnu "$work/clib/libtapebox.a"
    install -m 644 "$work/clib/libtapebox.so" "$root/usr/lib/x86_64-linux-gnu/libtapebox.so.1" || exit 1
    strip --strip-unneeded "$root/usr/lib/x86_64-linux-gnu/libtapebox.so.1" || exit 1
    ln -s libtapebox.so.1 "$root/usr/lib/x86_64-linux-gnu/libtapebox.so" || exit 1
    sed "s/@VERSION@/$(pages version "$program")/" "$top/clib/tapebox.pc" > "$work/tapebox.pc" || exit 1
    put 644 usr/lib/x86_64-linux-gnu/pkgconfig "$work/tapebox.pc"
    for example in day.h feed.c report.c report.cpp report.rs tapebox.hpp texts.c; do
        sed 's/"\.\.\/tapebox\.h"/<tapebox.h>/' "$top/clib/examples/$example" > "$work/$example" || exit 1
        put 644 usr/share/tapebox/clib "$work/$example"
    done
fi

# The newest of the C library's versions that the program and the library name.
libc=$(find "$root/usr/lib" -type f -print0 | xargs -0 grep -aoh 'GLIBC_[0-9.]*' | sed 's/GLIBC_//' | sort -uV | tail -n 1)
size=$(du -sk --apparent-size "$root" | cut -f 1)
mkdir "$root/DEBIAN" || exit 1
sed "s/@VERSION@/$version/; s/@SIZE@/$size/; s/@LIBC@/${libc:-2.34}/" "$top/packaging/control" > "$root/DEBIAN/control" || exit 1
if [ -e "$root/usr/include" ]; then
    echo "libtapebox 1 tapebox (>= $version)" > "$root/DEBIAN/shlibs" && echo "activate-noawait ldconfig" > "$root/DEBIAN/triggers" || exit 1
fi
(cd "$root" && find usr lib etc -type f -print | LC_ALL=C sort | xargs -d '\n' md5sum) > "$root/DEBIAN/md5sums" || exit 1
package=$to/tapebox_${version}_amd64.deb
dpkg-deb --root-owner-group -Zxz --build "$root" "$package" > /dev/null || exit 1
echo "$package"
