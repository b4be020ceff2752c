#!/usr/bin/env bash
# Makes a package for Debian of the program and of what stands around it: package.sh [FOLDER]
#
# Writes tablelayout_VERSION_amd64.deb in FOLDER, or in the current one, and prints its name. VERSION is that of the Python
# package. Builds the program where it is missing. What `tablelayout install` puts below /usr is in it, with the modules
# where the Python of the system looks for them, the documents and the examples. Two packages of one commit are the same to
# the byte. DEBFULLNAME and DEBEMAIL name who maintains it; without them it is the author of the last commit.
#
# Needs dpkg-deb, readelf and strip of binutils, and git. Fails if the program needs a library beside the C library.
set -euo pipefail
top=$(dirname "$(dirname "$(readlink -f "${BASH_SOURCE[0]}")")")
to=$(readlink -f "${1-.}")
room=$(mktemp -d)
trap 'rm -rf "$room"' EXIT

fail() {
    echo "package: $1" >&2
    exit 1
}

for tool in dpkg-deb readelf strip git; do
    command -v "$tool" >/dev/null || fail "there is no $tool"
done
version=$(sed -n 's/^version = "\(.*\)"$/\1/p' "$top/integrations/python/pyproject.toml")
# All files are of the time of the last commit.
SOURCE_DATE_EPOCH=$(git -C "$top" log -1 --format=%ct)
maintainer="${DEBFULLNAME-$(git -C "$top" log -1 --format=%an)} <${DEBEMAIL-$(git -C "$top" log -1 --format=%ae)}>"
date=$(date -ud "@$SOURCE_DATE_EPOCH" -R)
export SOURCE_DATE_EPOCH
root=$room/root
modules=usr/lib/python3/dist-packages/tablelayout
docs=$root/usr/share/doc/tablelayout

# What is installed, with the modules of Python in the system's folder, where dpkg has them compiled.
lay_files() {
    DESTDIR=$root "$top/tablelayout" install /usr
    rm -r "$root/usr/libexec/tablelayout/folders" "$root"/usr/libexec/tablelayout/python/tablelayout/__pycache__
    mkdir -p "$root/${modules%/*}"
    mv "$root/usr/libexec/tablelayout/python/tablelayout" "$root/$modules"
    ln -s "../../../${modules#usr/}" "$root/usr/libexec/tablelayout/python/tablelayout"
    gzip -9n "$root/usr/share/man/man1/tablelayout.1"
    strip "$root/usr/libexec/tablelayout/tablelayout"
}

lay_documents() {
    mkdir -p "$docs/docs" "$docs/examples"
    cp "$top/README.md" "$docs"
    cp "$top"/docs/*.md "$docs/docs"
    cp "$top"/examples/* "$docs/examples"
    cat >"$docs/copyright" <<COPYRIGHT
Copyright 2026 $maintainer

The repository that this package is made of states no licence.
COPYRIGHT
    gzip -9n >"$docs/changelog.gz" <<CHANGES
tablelayout ($version) unstable; urgency=medium

  * The program, its front, and the filter for pandoc in one package.

 -- $maintainer  $date
CHANGES
}

# The libraries that the program needs, and the version of the C library.
needed() {
    readelf -d "$1" | sed -n 's/.*(NEEDED).*\[\(.*\)\]/\1/p'
}
least_version() {
    readelf -V "$1" | grep -o 'GLIBC_[0-9.]*' | cut -d _ -f 2 | sort -V | tail -n 1
}

write_control() {
    local program=$root/usr/libexec/tablelayout/tablelayout library
    for library in $(needed "$program"); do
        [[ $library =~ ^(libc\.so\.6|ld-linux-x86-64\.so\.2)$ ]] || fail "the program needs $library, and has to need the C library alone"
    done
    mkdir "$root/DEBIAN"
    cat >"$root/DEBIAN/control" <<CONTROL
Package: tablelayout
Version: $version
Architecture: amd64
Maintainer: $maintainer
Installed-Size: $(du -k -s --apparent-size "$root/usr" | cut -f 1)
Depends: libc6 (>= $(least_version "$program")), python3 (>= 3.8)
Recommends: python3-html5lib, pandoc
Suggests: less, python3-rich
Section: text
Priority: optional
Description: lowest page of fixed-width text for a table
 Given a page width and a table of HTML or CSV, tablelayout writes the lowest
 page of text that fits, and a certificate that no lower page exists. That it
 is the lowest is proved, by contracts of the code for every file and width.
 .
 It shows the tables of any file on a terminal, in less and in diffs of git,
 and lays out those of documents by a filter for pandoc.
CONTROL
    write_script postinst <<SCRIPT
# The modules are compiled for each Python of the system.
if [ "\$1" = configure ] && [ -z "\${DPKG_ROOT-}" ] && command -v py3compile >/dev/null; then
    py3compile -p tablelayout
fi
SCRIPT
    write_script prerm <<SCRIPT
# What is compiled goes with the modules.
rm -rf "\${DPKG_ROOT-}/$modules/__pycache__"
SCRIPT
    (cd "$root" && find usr -type f -exec md5sum {} + | LC_ALL=C sort -k 2) >"$root/DEBIAN/md5sums"
}

write_script() {
    {
        printf '#!/bin/sh\nset -e\n'
        cat
    } >"$root/DEBIAN/$1"
    chmod 755 "$root/DEBIAN/$1"
}

umask 022
mkdir "$root"
lay_files
lay_documents
write_control
chmod -R go-w,a+rX "$root"
dpkg-deb --root-owner-group -Zxz --build "$root" "$to/tablelayout_${version}_amd64.deb" >/dev/null
echo "$to/tablelayout_${version}_amd64.deb"
