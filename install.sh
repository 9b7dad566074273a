#!/bin/sh
# Installs the programs that programs.txt names, their manual pages and completions, below ${DESTDIR:-}${PREFIX:-/usr/local}; with --uninstall
# takes these files away again. What is installed needs nothing else of this folder.
set -eu
top=$(dirname "$(readlink -f "$0")")
prefix=${DESTDIR:-}${PREFIX:-/usr/local}

# put FILE PATH MODE: installs a file under the prefix in one step
put() {
    mkdir -p "$(dirname "$prefix/$2")"
    cp "$top/$1" "$prefix/$2.new"
    chmod "$3" "$prefix/$2.new"
    mv "$prefix/$2.new" "$prefix/$2"
    echo "installed $prefix/$2"
}

# take FILE PATH MODE: removes what was installed
take() {
    if [ -e "$prefix/$2" ]; then
        rm "$prefix/$2"
        echo "removed $prefix/$2"
    fi
}

# each_file COMMAND: of all that is installed
each_file() {
    for name in $(grep -v '^#' "$top/programs.txt"); do
        "$1" "crates/$name/out/$name" "bin/$name" 755
        "$1" "docs/$name.1" "share/man/man1/$name.1" 644
        "$1" "completions/$name.bash" "share/bash-completion/completions/$name" 644
        "$1" "completions/_$name" "share/zsh/site-functions/_$name" 644
        "$1" "completions/$name.fish" "share/fish/vendor_completions.d/$name.fish" 644
    done
}

case "$#:${1:-}" in
    0:)
        "$top/build"
        each_file put
        ;;
    1:--uninstall)
        each_file take
        ;;
    *)
        echo 'usage: [DESTDIR=DIR] [PREFIX=DIR] ./install.sh [--uninstall]' >&2
        exit 2
        ;;
esac
