#!/bin/bash
# Makes a Debian package of the built programs and what belongs to them.
#
# usage: contrib/debian-package.sh [FOLDER]
#
# FOLDER is that of install.sh. It writes drmcast_VERSION_ARCHITECTURE.deb into the current folder, with the version of the file
# VERSION, and the date of that version in CHANGELOG.md. It needs dpkg-dev and binutils, and installs nothing. SOURCE_DATE_EPOCH is
# heeded.

set -eu

usage() {
    sed -n '2,/^$/s/^# \{0,1\}//p' "$0"
}

if [ "${1-}" = --help ] || [ "${1-}" = -h ]; then
    usage
    exit
fi
if [ $# -gt 1 ]; then
    usage >&2
    exit 1
fi
for needed in dpkg-deb dpkg-shlibdeps strip; do
    if ! command -v "$needed" > /dev/null; then
        echo "debian-package.sh: $needed isn't there; it comes with the packages dpkg-dev and binutils" >&2
        exit 1
    fi
done
here=$(cd "$(dirname "$0")/.." && pwd)
version=$(cat "$here/VERSION")
if ! [[ $version =~ ^[0-9][0-9A-Za-z.+~]*$ ]]; then
    echo "debian-package.sh: $version is no version" >&2
    exit 1
fi
architecture=$(dpkg --print-architecture)
maintainer='Vattaupe <maintainers@users.noreply.vattaupe.example>'
released=$(sed -n "s/^## ${version//./\\.} (\([0-9-]*\))\$/\1/p" "$here/CHANGELOG.md")
SOURCE_DATE_EPOCH=${SOURCE_DATE_EPOCH-$(date -u -d "${released:-no date}" +%s)}
export SOURCE_DATE_EPOCH
folder=$(mktemp -d)
trap 'rm -rf "$folder"' EXIT
root=$folder/root
documents=$root/usr/share/doc/drmcast
umask 022

DESTDIR=$root PREFIX=/usr "$here/contrib/install.sh" ${1+"$1"}
strip --strip-unneeded --remove-section=.comment --remove-section=.note "$root"/usr/bin/*
sed -i '1s:^#!/usr/bin/env python3$:#!/usr/bin/python3:' "$root"/usr/lib/drmcast/*.py
install -d "$root/etc/drmcast" "$root/DEBIAN"

# What a package has in place of LICENSE, and of a change log of another kind.
rm -f "$documents/LICENSE"
sed -i 's/](LICENSE)/](copyright)/g' "$documents"/*.md
cat > "$documents/copyright" <<END
Format: https://www.debian.org/doc/packaging-manuals/copyright-format/1.0/
Upstream-Name: drmcast
Upstream-Contact: $maintainer

Files: *
Copyright: $(sed -n 's/^Copyright //p' "$here/LICENSE")
License: Apache-2.0
 On Debian systems the text of the Apache License, version 2.0, is in
 /usr/share/common-licenses/Apache-2.0.
END
gzip -9n "$root"/usr/share/man/man1/*.1
gzip -9n > "$documents/changelog.gz" <<END
drmcast ($version) unstable; urgency=medium

  * Version $version. What is new in it is in CHANGELOG.md.

 -- $maintainer  $(date -u -R -d "@$SOURCE_DATE_EPOCH")
END

# dpkg-shlibdeps looks for a control file of a source, and says which versions of libraries the programs really need.
mkdir "$folder/debian"
printf 'Source: drmcast\n\nPackage: drmcast\nArchitecture: any\n' > "$folder/debian/control"
libraries=$(cd "$folder" && dpkg-shlibdeps -O "$root"/usr/bin/* 2> "$folder/shlibdeps") || {
    cat "$folder/shlibdeps" >&2
    exit 1
}
cat > "$root/DEBIAN/control" <<END
Package: drmcast
Version: $version
Architecture: $architecture
Maintainer: $maintainer
Depends: ${libraries#shlibs:Depends=}, python3
Recommends: bash-completion
Suggests: prometheus-node-exporter, socat, tshark
Section: net
Priority: optional
Installed-Size: $(du -ks --apparent-size "$root/usr" | cut -f 1)
Description: Digital Radio Mondiale multiplex, from a content server to modulators
 Serves the FAC, the SDC and the stream frames of a schedule as MDI items in
 DCP, in fragments with Reed-Solomon or whole, over UDP or in a capture, and
 receives them. A gateway carries them on under another protection, and
 drmpaths receives one schedule over several networks. What they do is proved.
END
cat > "$root/DEBIAN/prerm" <<'END'
#!/bin/sh
set -e
# What Python left beside the scripts.
rm -rf /usr/lib/drmcast/__pycache__
END
chmod 755 "$root/DEBIAN/prerm"
for moment in postinst postrm; do
    cat > "$root/DEBIAN/$moment" <<'END'
#!/bin/sh
set -e
if [ -d /run/systemd/system ]; then
    systemctl --system daemon-reload > /dev/null || true
fi
END
    chmod 755 "$root/DEBIAN/$moment"
done
(cd "$root" && find usr -type f -print0 | sort -z | xargs -0 md5sum > DEBIAN/md5sums)
find "$root" -newermt "@$SOURCE_DATE_EPOCH" -print0 | xargs -0r touch --no-dereference --date="@$SOURCE_DATE_EPOCH"
dpkg-deb --root-owner-group --build "$root" "drmcast_${version}_$architecture.deb"
