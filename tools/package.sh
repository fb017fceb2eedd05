#!/usr/bin/env bash
# Makes a Debian package of the program, in the given folder (out/package by default): the program with its launcher, the manual pages desk(1) and
# desk-script(5), units of systemd that serve a register, sign for it, issue and publish its CRLs, completion for bash, the board, the office view, documents and examples;
# and the native signer, if libcrypto can be linked here (Debian: libssl-dev).
# Builds the program first if it is not built yet or is older than its sources. Prints the package's path.
#
# Usage, from the repository's root: tools/package.sh [FOLDER]
set -euo pipefail
umask 022
out=${1:-out/package}
program=crates/reg_desk/out/reg_desk
kit=${KIT:-/opt/rattle}

# shellcheck source=tools/current.sh
. tools/current.sh
is_current . || ./desk build

# The package of one commit is the same whenever it is made.
commit=$(git rev-parse --short=7 HEAD)
[ -z "$(git status --porcelain)" ] || commit=$commit.changed
SOURCE_DATE_EPOCH=$(git show -s --format=%ct HEAD)
export SOURCE_DATE_EPOCH
# Versions sort by the moment of their commits, so an upgrade never installs an older commit of the same day.
version=$(tools/version.sh | sed -n 's/^desk \([^ ]*\) .*/\1/p')+$(date -u -d "@$SOURCE_DATE_EPOCH" +%Y%m%d%H%M%S).$commit
maintainer=$(git show -s --format='%an <%ae>' HEAD)
architecture=$(dpkg --print-architecture)
mkdir -p "$out"
root=$(mktemp -d)
trap 'rm -rf "$root"' EXIT
chmod 0755 "$root"
put() { install -D -m "$1" "$2" "$root/$3"; }
zipped() { gzip -9n >"$root/$1"; }

put 0755 "$program" usr/lib/durshavon/desk
put 0644 tools/large-pages.sh usr/lib/durshavon/large-pages.sh
native=$root/usr/lib/durshavon/desk-signer libcrypto=
if echo '#include <openssl/evp.h>' | cc -E -x c - >/dev/null 2>&1; then
    make -s -C signer CFLAGS=-O2 OUT="$native"
    chmod 0755 "$native"
    put 0644 packaging/native-signer.conf lib/systemd/system/desk-signer@.service.d/native.conf
    put 0644 packaging/native-responder.conf lib/systemd/system/desk-responder@.service.d/native.conf
    libcrypto=", $(dpkg-query -S '*/libcrypto.so.3' | sed 's/:.*//' | head -n 1)"
else
    echo "tools/package.sh: the package is without desk-signer: apt install libssl-dev" >&2
    native=$program
fi
# The newest version of glibc that the programs need.
glibc=$(grep -aohE 'GLIBC_[0-9]+\.[0-9]+' "$program" "$native" | sed 's/GLIBC_//' | sort -uV | tail -n 1)
put 0755 packaging/desk usr/bin/desk
tools/version.sh >"$root/usr/lib/durshavon/version"
chmod 0644 "$root/usr/lib/durshavon/version"
put 0644 packaging/desk.bash usr/share/bash-completion/completions/desk
put 0644 examples/board/index.html usr/share/durshavon/board/index.html
put 0644 examples/office/index.html usr/share/durshavon/office/index.html

mkdir -p "$root/etc/durshavon"
# The units: the desk, a follower, the timer and services for its CRLs, the signer and the responder's signer, each with its own socket and user.
for name in desk@.service desk-follow@.service desk-crl@.timer desk-crl@.service desk-publish@.service \
    desk-signer@.socket desk-signer@.service desk-responder@.socket desk-responder@.service; do
    put 0644 "packaging/$name" "lib/systemd/system/$name"
done
for name in issue-due-crl.sh publish-crl.sh register-pem.sh backup.sh after-a-backup.py lost-rows.py from-openssl-index.py signer.py only_ours.py check-signer.py pkcs11-signer.sh issuer-words.sh audit-report.py; do
    put 0755 "examples/$name" "usr/lib/durshavon/$name"
done
put 0755 packaging/wait-for-desk.sh usr/lib/durshavon/wait-for-desk.sh

manual=$(mktemp -d)
tools/man.py "$root/usr/lib/durshavon/desk" "$manual"
mkdir -p "$root/usr/share/man/man1" "$root/usr/share/man/man5"
zipped usr/share/man/man1/desk.1.gz <"$manual/desk.1"
zipped usr/share/man/man5/desk-script.5.gz <"$manual/desk-script.5"
rm -r "$manual"

documents=usr/share/doc/durshavon
# The pages, at the paths by which they link to each other.
for name in README.md CHANGELOG.md SECURITY.md docs/*.md docs/*.png docs/*.svg crates/reg_core/README.md crates/reg_core_lists/README.md \
    crates/reg_ocsp/README.md crates/reg_store/README.md signer/README.md; do
    put 0644 "$name" "$documents/$name"
done
put 0644 packaging/README.Debian "$documents/README.Debian"
tools/copyright.py "$kit" >"$root/$documents/copyright"
printf 'durshavon (%s) unstable; urgency=low\n\n  * Commit %s.\n\n -- %s  %s\n' "$version" "$commit" "$maintainer" \
    "$(date -u -R -d "@$SOURCE_DATE_EPOCH")" | zipped "$documents/changelog.gz"
for name in first-day.txt first-day.replies.txt certificates.csv nginx.conf keepalived.conf alerts.yml; do
    put 0644 "examples/$name" "$documents/examples/$name"
done

# The package has the program byte for byte as it was built and run, with its symbols.
mkdir -p "$root/usr/share/lintian/overrides"
echo 'durshavon: unstripped-binary-or-object' >"$root/usr/share/lintian/overrides/durshavon"

mkdir "$root/DEBIAN"
for name in postinst prerm postrm; do
    put 0755 "packaging/$name" "DEBIAN/$name"
done
cat >"$root/DEBIAN/control" <<CONTROL
Package: durshavon
Version: $version
Architecture: $architecture
Section: admin
Priority: optional
Maintainer: $maintainer
Installed-Size: $(du -sk --exclude=DEBIAN "$root" | cut -f1)
Depends: libc6 (>= $glibc)$libcrypto, passwd, openssl, curl, python3
Suggests: nginx-light | nginx, opensc, libengine-pkcs11-openssl, python3-cryptography, socat
Description: certificate register with CRLs and OCSP
 The register and status service of one certification authority: it records the
 certificates that were issued, takes requests for their revocation with the
 deadlines of these, issues X.509 CRLs and answers OCSP requests.
 .
 Each function of the program is proved to meet its contract.
CONTROL
(cd "$root" && find . -type f ! -path './DEBIAN/*' -printf '%P\n' | LC_ALL=C sort | xargs md5sum >DEBIAN/md5sums)
find "$root" -newermt "@$SOURCE_DATE_EPOCH" -exec touch -h -d "@$SOURCE_DATE_EPOCH" {} +
package=$out/durshavon_${version}_$architecture.deb
dpkg-deb --root-owner-group --build "$root" "$package" >/dev/null
echo "$package"
