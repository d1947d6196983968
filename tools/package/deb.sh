#!/bin/sh
# Makes for each processor a package for Debian and an archive with the same tree, which runs where it is unpacked:
#
#   tools/package/deb.sh [FOLDER]       rim_VERSION_amd64.deb, rim-VERSION-x86_64-linux.tar.gz, rim_VERSION_arm64.deb and
#                                       rim-VERSION-aarch64-linux.tar.gz in FOLDER, by default out/
#
# Where dist/ has the library, librim0_VERSION_ARCH.deb and librim-dev_VERSION_ARCH.deb are made too: the shared library, for which amd64 has one for
# x86-64-v3 beside it, which the system's loader takes by itself; and the header, the archive and rim.pc. The archive has these in include/ and lib/.
#
# They are made of the last commit, so what is not committed is not in them; dist/ has to be of its sources. The same commit gives the
# same bytes again, where dpkg-deb, xz, tar and gzip are of the same versions: each time is that of the commit, or SOURCE_DATE_EPOCH.
# The maintainer is who made that commit, or DEBFULLNAME and DEBEMAIL. It is made on x86-64, since the version is asked of the program.
# Nothing else of the environment changes it: tar, gzip, xz, dpkg-deb and git each take options from there, by which modes and bytes differ.
set -eu
for name in $(env | sed -n 's/^\([A-Za-z_][A-Za-z0-9_]*\)=.*/\1/p'); do
    case $name in
    PATH | HOME | TMPDIR | SOURCE_DATE_EPOCH | DEBFULLNAME | DEBEMAIL | SHELLOPTS | BASHOPTS) ;;
    *) unset "$name" ;;
    esac
done
umask 022
export LC_ALL=C

fail() {
    echo "deb.sh: $1" >&2
    exit 1
}

# Whether dist/ has the programs, or the library, of the sources of this commit. Python keeps nothing, since all files of scripts/ are packaged.
is_of_sources() {
    python3 -B tools/package/dist.py --named "$1" >&2
}

# Puts a file of the commit into the tree, with a mode and at a path.
put() {
    install -D -m "$1" "$2" "$tree/$3"
}

# A file packed into the tree, without its name and time.
put_packed() {
    mkdir -p "$tree/$(dirname "$2")"
    gzip -9n <"$1" >"$tree/$2.gz"
}

put_programs() {
    case $machine in
    x86_64)
        put 755 tools/package/rim bin/rim
        put 755 dist/rim-x86_64-v2 libexec/rim/x86-64-v2/rim
        put 755 dist/rim-x86_64-v3 libexec/rim/x86-64-v3/rim
        ;;
    *) put 755 "dist/rim-$machine" bin/rim ;;
    esac
    for script in rim-manifest rim-match rim-compare rim-page rim-verify rim-endorse; do
        [ ! -f "$script" ] || put 755 "$script" "bin/$script"
    done
    if [ -f rim-manifest ]; then
        (cd scripts && find . -mindepth 2 -type f) | while read -r path; do
            mode=644
            [ ! -x "scripts/$path" ] || mode=755
            put "$mode" "scripts/$path" "share/rim/${path#./}"
        done
    fi
}

# What a user reads.
put_documents() {
    for page in docs/*.1; do
        put_packed "$page" "share/man/man1/${page##*/}"
    done
    tools/package/documents.py "$tree"
    { packaged_head && of_programs && packaged_licences; } >"$tree/share/doc/rim/copyright"
    packaged_changes >"$work/changelog"
    put_packed "$work/changelog" share/doc/rim/changelog
}

put_completions() {
    tools/package/completions.py "$work/completions-$arch"
    for program in rim rim-manifest rim-match rim-compare rim-page rim-verify rim-endorse; do
        [ "$program" = rim ] || [ -f "$program" ] || continue
        put 644 "$work/completions-$arch/$program.bash" "share/bash-completion/completions/$program"
        put 644 "$work/completions-$arch/_$program" "share/zsh/vendor-completions/_$program"
        put 644 "$work/completions-$arch/$program.fish" "share/fish/vendor_completions.d/$program.fish"
    done
}

packaged_head() {
    echo "Format: https://www.debian.org/doc/packaging-manuals/copyright-format/1.0/"
    echo "Upstream-Name: rim"
    echo
    echo "Files: *"
    sed -n 's/^Copyright (c) /Copyright: /p' LICENSE-MIT
    echo "License: Apache-2.0 or MIT"
}

of_programs() {
    echo "Comment:"
    echo " The programs have in them what they call of the GNU C library (LGPL-2.1 or later)"
    echo " and of GCC's own functions (GPL-3 with the GCC Runtime Library Exception). Those"
    echo " were of the packages"
    sed -n 's/^package \([^ ]*\) \([^ ]*\) .*/ \1 \2/p' dist/SOURCE
    echo " of Debian. What they are linked with is built of the sources of rim, by the kit"
    echo " that its README.md names."
}

packaged_licences() {
    echo
    echo "License: Apache-2.0"
    echo " The whole text is in /usr/share/common-licenses/Apache-2.0."
    echo
    echo "License: MIT"
    sed -n '/^Permission/,$p' LICENSE-MIT | sed 's/^$/./; s/^/ /'
}

packaged_changes() {
    echo "rim ($version) unstable; urgency=medium"
    echo
    echo "  * The commit $commit."
    echo
    echo " -- $maintainer  $(date -u -R -d "@$SOURCE_DATE_EPOCH")"
}

installed_size() {
    find "$package/usr" -printf '%y %s\n' | awk '{ kib += $1 == "f" ? int(($2 + 1023) / 1024) : 1 } END { print kib }'
}

control() {
    cat <<END
Package: rim
Version: $version
Architecture: $arch
Maintainer: $maintainer
Installed-Size: $(installed_size)
Depends: python3 (>= 3.9)
Recommends: python3 (>= 3.11) | python3-tomli
Suggests: python3-cryptography
Section: utils
Priority: optional
Description: expected measurements of Arm CCA realms
 An Arm CCA realm is a confidential VM, which is measured while it is built. A
 verifier compares its Realm Initial Measurement with an expected value. rim
 computes that value from kernel, initrd, devicetree and VM layout, before
 anything runs.
END
}

# Modes that no umask, no list of access and no bit of the folder for temporary files changes. Five digits take such a bit away.
set_modes() {
    find "$1" -type d -exec chmod 00755 {} +
    find "$1" -type f -perm -u+x -exec chmod 755 {} +
    find "$1" -type f ! -perm -u+x -exec chmod 644 {} +
}

set_times() {
    find "$1" -exec touch -h -d "@$SOURCE_DATE_EPOCH" {} +
}

# A program that has the C library in it and may be put at any address is taken for a shared library.
overrides() {
    echo "rim: shared-library-lacks-prerequisites [usr/*]"
}

# The tree as it is installed in /usr. There an interpreter has the path of the system's.
make_package() {
    mkdir -p "$package/DEBIAN"
    cp -R "$tree" "$package/usr"
    mkdir -p "$package/usr/share/lintian/overrides"
    overrides >"$package/usr/share/lintian/overrides/rim"
    find "$package/usr" -type f -perm -u+x -exec sed -i '1s|^#!/usr/bin/env python3$|#!/usr/bin/python3|' {} +
    control >"$package/DEBIAN/control"
    close_package
}

# Makes the file of a package of all that is in its folder.
close_package() {
    (cd "$package" && find usr -type f | sort | xargs md5sum) >"$package/DEBIAN/md5sums"
    set_modes "$package"
    set_times "$package"
    # xz by one thread: by more its bytes are others
    DPKG_DEB_THREADS_MAX=1 dpkg-deb --root-owner-group -Zxz -z6 --build "$package" "$work/$deb" >/dev/null
}

# ---- the library

# Begins a package of the library, of this name.
open_library() {
    package=$work/$1-$arch
    tree=$package/usr
    deb=$1_${version}_$arch.deb
    mkdir -p "$package/DEBIAN" "$tree/share/doc/$1"
    { packaged_head && packaged_licences; } >"$tree/share/doc/$1/copyright"
    put_packed "$work/changelog" "share/doc/$1/changelog"
}

# Its name, its section, what it needs, and what it is. The rest of what it is comes from standard input.
library_control() {
    cat <<END
Package: $1
Source: rim
Version: $version
Architecture: $arch
Multi-Arch: same
Maintainer: $maintainer
Installed-Size: $(installed_size)
Depends: $3
Section: $2
Priority: optional
Description: $4
 An Arm CCA realm is a confidential VM, which is measured while it is built. A
 verifier compares its Realm Initial Measurement with an expected value. This
 library computes that value from a manifest and its files in memory.
END
    sed 's/^/ /; s/^ $/ ./'
}

# Which package programs need that are linked with the shared library, for all of its names the version that is packaged.
library_symbols() {
    echo "librim.so.0 librim0 #MINVER#"
    {
        echo "RIM_0"
        sed -n 's/^rim_code \(rim_[a-z_]*\)(.*/\1/p' library/rim.h
    } | sort | sed "s/.*/ &@RIM_0 $version/"
}

# What a program needs that is linked with the shared library, in a folder of the tree.
put_shared() {
    put 644 "dist/librim-$least.so.0" "$1/librim.so.0"
    [ ! -f "dist/librim-$machine-v3.so.0" ] || put 644 "dist/librim-$machine-v3.so.0" "$1/glibc-hwcaps/x86-64-v3/librim.so.0"
}

# What is needed to link one: the header, and in a folder of the tree the archive and what pkg-config reads, which has this prefix.
put_development() {
    put 644 library/rim.h include/rim.h
    put 644 "dist/librim-$least.a" "$1/librim.a"
    ln -s librim.so.0 "$tree/$1/librim.so"
    mkdir "$tree/$1/pkgconfig"
    sed "s|@prefix@|$2|; s|@libdir@|$2/$1|; s|@version@|$version|" library/rim.pc.in >"$tree/$1/pkgconfig/rim.pc"
}

make_shared() {
    open_library librim0
    put_shared "lib/$multiarch"
    echo "librim 0 librim0 (>= $version)" >"$package/DEBIAN/shlibs"
    library_symbols >"$package/DEBIAN/symbols"
    echo "activate-noawait ldconfig" >"$package/DEBIAN/triggers"
    library_control librim0 libs "libc6 (>= 2.17)" "measurements of Arm CCA realms, shared library" </dev/null >"$package/DEBIAN/control"
    close_package
}

make_development() {
    open_library librim-dev
    put_development "lib/$multiarch" /usr
    [ ! -f docs/LIBRARY.md ] || put 644 docs/LIBRARY.md share/doc/librim-dev/LIBRARY.md
    library_control librim-dev libdevel "librim0 (= $version)" "measurements of Arm CCA realms, for C programs" >"$package/DEBIAN/control" <<END

This package has the header, the archive, and what pkg-config reads.
END
    close_package
}

has_library() {
    [ -f "dist/librim-$least.so.0" ]
}

# The packages of the library, where dist/ has it for this processor.
make_library() {
    for each in make_shared make_development; do
        $each
        place "$deb"
        made="$made $deb"
    done
}

# The archive may be unpacked anywhere, so pkg-config is given the place of what it reads.
make_archive() {
    put 644 LICENSE-APACHE LICENSE-APACHE
    put 644 LICENSE-MIT LICENSE-MIT
    if has_library; then
        put_shared lib
        # shellcheck disable=SC2016 # pkg-config puts in what that is
        put_development lib '${pcfiledir}/../..'
    fi
    set_modes "$tree"
    set_times "$tree"
    tar -C "$work" --sort=name --owner=0 --group=0 --numeric-owner --format=gnu -cf "$work/archive.tar" "${tree##*/}"
    gzip -9n <"$work/archive.tar" >"$work/$archive"
}

# Puts a file in its place, whole or not at all.
place() {
    cp "$work/$1" "$out/.rim.$$.new"
    mv "$out/.rim.$$.new" "$out/$1"
}

# A git that no configuration has change what is in the archive.
plain_git() {
    git -C "$top" -c core.autocrlf=false -c core.eol=lf -c core.attributesFile=/dev/null -c tar.umask=0022 -c log.showSignature=false "$@"
}

top=$(cd "$(dirname "$0")/../.." && pwd)
mkdir -p "${1:-$top/out}"
out=$(cd "${1:-$top/out}" && pwd)
work=$(mktemp -d)
work=$(cd "$work" && pwd)
export TMPDIR="$work"
trap 'rm -rf "$work" "$out/.rim.$$.new"' EXIT
trap 'exit 1' HUP INT TERM

commit=$(plain_git rev-parse HEAD)
SOURCE_DATE_EPOCH=${SOURCE_DATE_EPOCH:-$(plain_git log -1 --format=%ct)}
export SOURCE_DATE_EPOCH
maintainer="${DEBFULLNAME:-$(plain_git log -1 --format=%an)} <${DEBEMAIL:-$(plain_git log -1 --format=%ae)}>"
mkdir "$work/source"
plain_git archive --format=tar -o "$work/source.tar" "$commit"
tar -C "$work/source" --no-same-owner --no-same-permissions -xf "$work/source.tar"
cd "$work/source"

is_of_sources programs || fail "dist/ is not of the sources of this commit: tools/package/dist.py brings it up to date"
[ ! -e dist/LIBRARY-SOURCE ] || is_of_sources library ||
    fail "the library of dist/ is not of the sources of this commit: tools/package/dist.py brings it up to date"
version=$(dist/rim-x86_64-v2 --version | cut -d ' ' -f 2)
expr "$version" : '[0-9][0-9.]*$' >/dev/null || fail "the program's version is $version, expected a number"

made=
for both in x86_64:amd64 aarch64:arm64; do
    machine=${both%:*}
    arch=${both#*:}
    tree=$work/rim-$version-$machine-linux
    package=$work/package-$arch
    deb=rim_${version}_$arch.deb
    archive=${tree##*/}.tar.gz
    multiarch=$machine-linux-gnu
    least=$machine
    [ "$machine" != x86_64 ] || least=x86_64-v2
    put_programs
    put_documents
    put_completions
    make_package
    make_archive
    place "$deb"
    place "$archive"
    made="$made $deb $archive"
    ! has_library || make_library
done
cd "$out"
# shellcheck disable=SC2086 # the names are words
sha256sum $made
