#!/bin/sh
# Makes Debian's package of the programs, the library for C and all that is installed with them, and tells its path:
# install-deb.sh RUMPADOL ISO_CLI LIBRARY FOLDER. MAINTAINER is the name and the address of who makes it: 'Name <address>'; without
# it, those of DEBFULLNAME and DEBEMAIL, and else those of the last commit. KIT is as of install-files.sh, and
# LEVEL says how hard xz packs, from 0 to 9.
set -eu
export LC_ALL=C
cd "$(dirname "$0")/.."

refuse() {
    echo "deb: $*" >&2
    exit 1
}

[ $# -eq 4 ] || refuse 'wanted are the two programs, the library and a folder'
rumpadol=$1 iso_cli=$2 library=$3 folder=$4
for program in dpkg-deb dpkg-shlibdeps dpkg-architecture strip gzip; do
    command -v "$program" > /dev/null || refuse "there is no program $program: install dpkg-dev and binutils"
done

made=$(mktemp -d)
trap 'rm -rf "$made"' EXIT
trap 'exit 1' HUP INT TERM

machine=$(dpkg-architecture -qDEB_HOST_MULTIARCH)
root=$made/rumpadol
libdir=/usr/lib/$machine
env DESTDIR="$root" PREFIX=/usr LIBDIR="$libdir" ZSHDIR=/usr/share/zsh/vendor-completions \
    scripts/install-files.sh "$rumpadol" "$iso_cli" "$library" > /dev/null
# dpkg has its own list
rm "$root/usr/share/rumpadol/installed"

version=$("$root/usr/bin/rumpadol" --version | sed 's/.* //')
name=$(git log -1 --format='%an' 2> /dev/null || echo 'Rumpadol maintainers')
mail=$(git log -1 --format='%ae' 2> /dev/null || echo 'maintainers@rumpadol.example')
maintainer=${MAINTAINER:-${DEBFULLNAME:-$name} <${DEBEMAIL:-$mail}>}
SOURCE_DATE_EPOCH=${SOURCE_DATE_EPOCH:-$(git log -1 --format=%ct 2> /dev/null || date +%s)}
export SOURCE_DATE_EPOCH

# without what only a debugger reads
strip --strip-unneeded --remove-section=.comment --remove-section=.note "$root$libdir/librumpadol.so.$version"
strip --strip-debug --remove-section=.comment --remove-section=.note --enable-deterministic-archives "$root$libdir/librumpadol.a"
chmod 644 "$root$libdir/librumpadol.so.$version"
for program in rumpadol iso_cli; do
    strip --remove-section=.comment --remove-section=.note "$root/usr/bin/$program"
done

gzip -9n "$root"/usr/share/man/man1/*.1
mkdir -p "$root/usr/share/doc/rumpadol" "$root/usr/share/lintian/overrides" "$root/DEBIAN"
cp packaging/copyright "$root/usr/share/doc/rumpadol/copyright"
cp packaging/lintian-overrides "$root/usr/share/lintian/overrides/rumpadol"
cat > "$made/changelog" << END
rumpadol ($version) unstable; urgency=medium

  * Version $version of the programs and of the library for C.

 -- $maintainer  $(date -u -R -d "@$SOURCE_DATE_EPOCH")
END
gzip -9n < "$made/changelog" > "$root/usr/share/doc/rumpadol/changelog.gz"

# dpkg-shlibdeps wants a source package around it
mkdir "$made/debian"
printf 'Source: rumpadol\n\nPackage: rumpadol\nArchitecture: any\n' > "$made/debian/control"
wanted=$(cd "$made" && dpkg-shlibdeps -O --ignore-missing-info "rumpadol/usr/bin/rumpadol" "rumpadol/usr/bin/iso_cli" \
    "rumpadol$libdir/librumpadol.so.$version" 2> "$made/told") || refuse "$(cat "$made/told")"

echo "librumpadol ${version%%.*} rumpadol (>= $version)" > "$root/DEBIAN/shlibs"
echo 'activate-noawait ldconfig' > "$root/DEBIAN/triggers"
(cd "$root" && find usr -type f -print0 | sort -z | xargs -0 md5sum) > "$root/DEBIAN/md5sums"
cat > "$root/DEBIAN/control" << END
Package: rumpadol
Version: $version
Section: utils
Priority: optional
Architecture: $(dpkg-architecture -qDEB_HOST_ARCH)
Maintainer: $maintainer
Installed-Size: $(du -k -s --apparent-size "$root/usr" | cut -f 1)
Depends: ${wanted#shlibs:Depends=}
Description: tool and library for ISO 8583 card messages
$(cat packaging/description)
END
find "$root" -type d -exec chmod 755 {} +
find "$root" -type f ! -perm -100 -exec chmod 644 {} +
find "$root" -newermt "@$SOURCE_DATE_EPOCH" -exec touch -h -d "@$SOURCE_DATE_EPOCH" {} +

mkdir -p "$folder"
package=$folder/rumpadol_${version}_$(dpkg-architecture -qDEB_HOST_ARCH).deb
dpkg-deb --root-owner-group -Zxz -z"${LEVEL:-6}" --build "$root" "$package" > /dev/null
echo "$package"
