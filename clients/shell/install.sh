#!/bin/sh
# Installs the program and what stands beside it, and says what it put where.
#
#   clients/shell/install.sh [--prefix DIR] [--program PATH] [--uninstall]
#
# DIR is ~/.local where none is given. The program is that at PATH; without one it is that which was built in this checkout,
# where it is newer than the release, and else the released one. Nothing outside of DIR is touched; --uninstall takes away what
# was put there, and the folders in it that are empty then. Python 3.8 makes the package one file; without it the program, the
# page of its manual and completion are installed alone.
set -eu
here=$(cd "$(dirname "$0")" && pwd)
clients=$(dirname "$here")
root=$(dirname "$clients")
prefix=${HOME:-}/.local
program=
action=install
made=
trap '[ -z "$made" ] || rm -rf "$made"' EXIT

usage() {
    sed -n '4p' "$here/install.sh" | sed 's/^#   /usage: /' >&2
    exit 2
}

while [ $# -gt 0 ]; do
    case $1 in
        --prefix) [ $# -ge 2 ] || usage; prefix=$2; shift 2 ;;
        --prefix=*) prefix=${1#*=}; shift ;;
        --program) [ $# -ge 2 ] || usage; program=$2; shift 2 ;;
        --program=*) program=${1#*=}; shift ;;
        --uninstall) action=uninstall; shift ;;
        *) usage ;;
    esac
done
[ -n "$prefix" ] || usage
case $prefix in /*) ;; *) prefix=$PWD/$prefix ;; esac

bin=$prefix/bin
share=$prefix/share
bash_file=$share/bash-completion/completions/rematch
core=$prefix/libexec/rematch
files="$bin/rematch
$core/rematch
$bin/rematch-to
$bin/rematch-cut
$bin/rematch-piece
$bin/rematch-play
$bin/rematch-serve
$bash_file
$share/zsh/site-functions/_rematch"
for name in rematch rematch-to rematch-cut rematch-piece rematch-play rematch-serve; do
    files="$files
$share/man/man1/$name.1
$share/bash-completion/completions/$name
$share/fish/vendor_completions.d/$name.fish"
done

if [ "$action" = uninstall ]; then
    printf '%s\n' "$files" | while IFS= read -r file; do
        if [ -e "$file" ] || [ -L "$file" ]; then
            rm -f "$file"
            echo "removed $file"
        fi
    done
    for folder in share/fish/vendor_completions.d share/fish share/zsh/site-functions share/zsh \
        share/bash-completion/completions share/bash-completion share/man/man1 share/man share bin \
        libexec/rematch libexec; do
        rmdir "$prefix/$folder" 2>/dev/null || true
    done
    exit 0
fi

# Unpacks a released program into a folder of this run, as the text beside it names it.
unpack() {
    program=$made/rematch
    gzip -dc "$1" >"$program" || true
    if [ "$(sha256sum <"$program")" != "$(sed -n 's/^program //p' "$root/release/$2")  -" ]; then
        echo "install.sh: the release is damaged: $1 is not the program that $2 beside it names" >&2
        exit 1
    fi
    chmod 755 "$program"
}

runs() {
    "$1" -e '/!it{is here}/' --explain </dev/null >/dev/null 2>&1
}

made=$(mktemp -d)
packed=$root/release/rematch-x86_64-linux.gz
static=$root/release/rematch-x86_64-linux-static.gz
if [ -z "$program" ]; then
    program=$root/crates/rematch/out/rematch
    if [ -r "$packed" ] && { [ ! -x "$program" ] || [ "$packed" -nt "$program" ]; }; then
        unpack "$packed" SOURCES
        runs "$program" || [ ! -r "$static" ] || unpack "$static" STATIC
    fi
fi
if [ ! -x "$program" ] || [ ! -f "$program" ]; then
    echo "install.sh: there is no built program $program; ./rematch in the checkout builds it" >&2
    exit 1
fi
if ! runs "$program"; then
    libc=' with glibc 2.34 or later'
    [ ! -r "$static" ] || libc=
    echo "install.sh: $program does not run here: the released program needs Linux on x86_64$libc, and here is $(uname -s) on $(uname -m)" >&2
    exit 1
fi

# A copy stands beside the file that it replaces first, so that a program that runs is not cut off.
put() {
    mkdir -p "$(dirname "$2")"
    cp "$1" "$2.new"
    chmod "$3" "$2.new"
    mv -f "$2.new" "$2"
    echo "$2: $4"
}

link() {
    mkdir -p "$(dirname "$2")"
    ln -sf "$1" "$2"
    echo "$2: $3"
}

put "$program" "$core/rematch" 755 "the program"
put "$here/command" "$bin/rematch" 755 "the command that runs it"
put "$root/man/rematch.1" "$share/man/man1/rematch.1" 644 "the page of the manual"
put "$here/rematch.bash" "$bash_file" 644 "completion for bash"
put "$here/_rematch" "$share/zsh/site-functions/_rematch" 644 "completion for zsh"
put "$here/rematch.fish" "$share/fish/vendor_completions.d/rematch.fish" 644 "completion for fish"

if command -v python3 >/dev/null 2>&1 && python3 -I -c 'import sys, zipapp; sys.exit(sys.version_info < (3, 8))' 2>/dev/null; then
    mkdir "$made/app" "$made/app/rematch" "$made/app/rematch/to"
    cp "$clients"/python/rematch/*.py "$clients"/python/rematch/py.typed "$made/app/rematch"
    cp "$clients"/python/rematch/to/*.py "$made/app/rematch/to"
    cp "$clients/python/rematch/__main__.py" "$made/app/__main__.py"
    python3 -I -m zipapp -c -p '/usr/bin/env python3' -o "$made/rematch-to" "$made/app"
    put "$made/rematch-to" "$bin/rematch-to" 755 \
        "rows as tables, concordances and pages; also the Python package (PYTHONPATH=$bin/rematch-to)"
    link rematch-to "$bin/rematch-cut" "pieces of a document"
    link rematch-to "$bin/rematch-piece" "the rows of a piece"
    link rematch-to "$bin/rematch-play" "a page to write queries beside a document"
    link rematch-to "$bin/rematch-serve" "sessions that tell back what is wrong with a request"
    for name in rematch-to rematch-cut rematch-piece rematch-play rematch-serve; do
        put "$root/man/$name.1" "$share/man/man1/$name.1" 644 "its page of the manual"
        link rematch "$share/bash-completion/completions/$name" "its completion for bash"
        link rematch.fish "$share/fish/vendor_completions.d/$name.fish" "its completion for fish"
    done
else
    echo "no Python 3.8: rematch-to, rematch-cut, rematch-piece, rematch-play and rematch-serve are left out"
fi

case ":${PATH:-}:" in
    *":$bin:"*) ;;
    *) echo "not on the path: PATH=$bin:\$PATH" ;;
esac
