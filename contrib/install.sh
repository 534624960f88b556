#!/bin/bash
# Installs the built programs, their manual pages, the completion for Bash, the scripts, the documents and the systemd units.
#
# usage: contrib/install.sh [FOLDER]
#
# FOLDER has the programs drmcast and drmpaths; without it they are taken from where they are built. PREFIX (/usr/local) is where
# they are to be found later, DESTDIR (empty) what stands before that while a package is made. Nothing is built.

set -eu

usage() {
    sed -n '2,/^$/s/^# \{0,1\}//p' "$0"
}

refuse() {
    echo "install.sh: $1" >&2
    exit 1
}

if [ "${1-}" = --help ] || [ "${1-}" = -h ]; then
    usage
    exit
fi
if [ $# -gt 1 ]; then
    usage >&2
    exit 1
fi
here=$(cd "$(dirname "$0")/.." && pwd)
version=$(cat "$here/VERSION")
released=$(sed -n "s/^## ${version//./\\.} (\([0-9-]*\))\$/\1/p" "$here/CHANGELOG.md")
[ -n "$released" ] || refuse "CHANGELOG.md doesn't say when version $version was released"
prefix=${PREFIX-/usr/local}
while [ "${prefix%/}" != "$prefix" ]; do
    prefix=${prefix%/}
done
case $prefix in
    /*) ;;
    *) refuse "PREFIX is to be the full path of a folder, and is ${PREFIX-}" ;;
esac
# A unit's line can't say a path with these.
case $prefix in
    *[\"\'\\%\$$'\n']*) refuse "PREFIX has a quote, a backslash, %, \$ or a new line: $prefix" ;;
esac
into=${DESTDIR-}$prefix
documents=$into/share/doc/drmcast
for name in drmcast drmpaths; do
    program=${1:-$here/crates/$name/out}/$name
    if [ ! -f "$program" ] || [ ! -x "$program" ]; then
        refuse "$program isn't there; (cd crates/$name && rt run) builds it"
    fi
done

for name in drmcast drmpaths; do
    install -D -m 755 "${1:-$here/crates/$name/out}/$name" "$into/bin/$name"
    install -D -m 644 "$here/docs/$name.1" "$into/share/man/man1/$name.1"
    sed -i "1s/\"[0-9-]*\" \"drmcast[^\"]*\"/\"$released\" \"drmcast $version\"/" "$into/share/man/man1/$name.1"
    install -D -m 644 "$here/contrib/drmcast.bash" "$into/share/bash-completion/completions/$name"
done
# The last line is what the sessions of the documents need besides.
for script in {watch,check_drmcast,playout,onair,interleave,report,pcap,explain,record,pace,units,messages}.py \
    {drop,deliveries,tshark_show}.py loopback.sh; do
    install -D -m 755 "$here/tools/$script" "$into/lib/drmcast/$script"
done
for shared in changes command_line datagrams fed_server fitting followed follower joined lasting metrics on_air pieces playlists playout_told reports schedule_faults \
    schedule_told schedules sending; do
    install -D -m 644 "$here/tools/$shared.py" "$into/lib/drmcast/$shared.py"
done
for document in docs/{OPERATION,SECURITY,SCHEDULE,FORMATS,TOUR,WIRESHARK,FIGURES,PROMISES,PROVED,BELIEVED,DECISIONS}.md README.md CHANGELOG.md LICENSE; do
    install -D -m 644 "$here/$document" "$documents/$(basename "$document")"
done
for example in "$here"/examples/*; do
    install -D -m 644 "$example" "$documents/examples/$(basename "$example")"
done
# All documents stand in one folder. A link to what isn't installed is its text alone.
for document in "$documents"/*.md; do
    sed -i -E 's#\]\((\.\./)?docs/#](#g; s#\]\(\.\./([A-Zcde])#](\1#g; s#\]\((\.\./)?tools/#](../../../lib/drmcast/#g' "$document"
    grep -oE '\]\([^)#]+' "$document" | cut -c 3- | sort -u | while read -r target; do
        case $target in
            http*) ;;
            *) [ -e "$documents/$target" ] || sed -i -E "s#\\[([^]]*)\\]\\(${target//./\\.}(\#[^)]*)?\\)#\\1#g" "$document" ;;
        esac
    done
done
install -d "$into/lib/systemd/system"
for unit in "$here"/contrib/systemd/*.service; do
    installed=$into/lib/systemd/system/$(basename "$unit")
    text=$(cat "$unit")
    printf '%s\n' "${text//@PREFIX@/"$prefix"}" > "$installed"
    chmod 644 "$installed"
done
