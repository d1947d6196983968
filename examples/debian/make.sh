#!/bin/sh
# Measures launches of a real release: the kernel and the installer's initrd of Debian for arm64, by QEMU's machine virt with three
# sizes of RAM, four numbers of processors, six command lines and two hash algorithms. That is 144 launches with 72 devicetrees, which
# QEMU makes, so rim-manifest writes two manifests.
#
# It fetches the package with apt into the folder `out` beside it, without any change of the system. QEMU has to be there (Debian:
# qemu-system-arm). The gate does not run it.
set -eu
cd "$(dirname "$0")"
top=$(cd ../.. && pwd)
mkdir -p out/state/lists/partial out/cache/archives/partial
cd out

package=debian-installer-12-netboot-arm64
images=./usr/lib/debian-installer/images/12/arm64/text/debian-installer/arm64
if [ ! -f linux ] || [ ! -f initrd.gz ]; then
    set -- -o APT::Architecture=arm64 -o APT::Architectures=arm64 -o Dir::State="$PWD/state" -o Dir::Cache="$PWD/cache" \
        -o Dir::State::status=/dev/null -o Debug::NoLocking=1
    apt-get "$@" update
    apt-get "$@" download "$package"
    dpkg-deb --fsys-tarfile "$package"_*.deb | tar x --strip-components=10 "$images/linux" "$images/initrd.gz"
    rm "$package"_*.deb
fi

# There is a warning: a plain QEMU makes the devicetrees of plain guests.
"$top/rim-manifest" qemu -machine virt,gic-version=3 -cpu cortex-a57 -m 256M,1G,2G -smp 1,2,4,8 -kernel linux -initrd initrd.gz \
    --append-file ../command-lines --algo sha256,sha512 --host ../host.toml --qemu qemu-system-aarch64 --out realms --force
RIM="$top/rim" realms/measure
