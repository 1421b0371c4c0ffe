#!/usr/bin/env bash
# Packages the built program, if it is the one that the gate passed of this commit (`tools/build.py fits`): into FOLDER go
# bank_VERSION_ARCH.deb, for Debian 12 and later, bank-VERSION.tar.gz with the same files, and SHA256SUMS of both. Two
# packages of one program and commit are equal, byte for byte.
#
#     tools/package.sh FOLDER [--trial]
#
# VERSION is the program's own with the minute of the commit; `--trial` packages a program that doesn't fit, and adds
# `~trial`. The package has the program with its man page and completion, the units, the scripts that they start, the
# rules of the counter's port, the documents and examples. When it is first installed it makes the user `bank`, and a bank
# without branches. Who maintains it is DEBFULLNAME and DEBEMAIL, as for any package, or the commit's author.
set -eu
cd "$(dirname "$0")/.."
built=crates/bank/out/bank
folder="$(realpath "${1:?a folder}")"
SOURCE_DATE_EPOCH="${SOURCE_DATE_EPOCH:-$(git log -1 --format=%ct)}"
export SOURCE_DATE_EPOCH
version="$("$built" --version | cut -d ' ' -f 2 | tr -d ,)+$(date -u -d "@$SOURCE_DATE_EPOCH" +%Y%m%d%H%M)"
if [ "${2:-}" = --trial ]; then version+="~trial"; else python3 tools/build.py fits; fi
arch="$(dpkg --print-architecture)"
work="$(mktemp -d)"
trap 'rm -rf "$work"' EXIT
root="$work/bank-$version"
doc="$root/usr/share/doc/bank"
man="$root/usr/share/man"
umask 022

install -D -m 755 "$built" "$root/usr/bin/bank"
mkdir -p "$root"/{DEBIAN,etc/bank} "$doc" "$man"/man{1,8} "$root"/usr/share/{bash-completion/completions,lintian/overrides} \
    "$root/lib/systemd/system"
examples/man_page.sh "$built" | gzip -9n >"$man/man1/bank.1.gz"
# Each script of a unit, with a man page of its head.
for it in standby evening watch; do
    install -m 755 "examples/$it.sh" "$root/usr/bin/bank-$it"
    {
        echo ".TH BANK-$it 8" "$(date -u -d "@$SOURCE_DATE_EPOCH" +%F)"
        printf '.SH NAME\nbank-%s \\- %s\n.SH DESCRIPTION\n.nf\n' "$it" "a script of the bank: $it"
        sed -n -e '1d' -e '/^#/!q' -e 's/^# \{0,1\}//' -e 's/\\/\\\\/g' -e "s/^[.']/\\\\\&&/" -e p "examples/$it.sh"
    } | gzip -9n >"$man/man8/bank-$it.8.gz"
done
install -m 644 examples/completion.bash "$root/usr/share/bash-completion/completions/bank"
install -m 644 examples/bank.nft "$root/etc/bank/"
install -D -m 644 examples/teller.logrotate "$root/etc/logrotate.d/bank-teller"
for unit in examples/*.service examples/*.timer; do
    sed -e '/^# *\(install\|for it\|done\)/d' -e s,/usr/local/bin/,/usr/bin/, "$unit" >"$root/lib/systemd/system/$(basename "$unit")"
done
for unit in examples/*.service; do
    install -D -m 644 examples/sandbox.conf "$root/lib/systemd/system/$(basename "$unit").d/sandbox.conf"
done
cp -r README.md CHANGELOG.md CONTRIBUTING.md SECURITY.md docs examples "$doc/"
# Those that need a checkout, or are in another place.
rm -r "$doc"/examples/{set_up,look,man_page,standby,evening,watch}.sh "$doc"/examples/*.{service,timer} \
    "$doc"/examples/{bank.nft,completion.bash,sandbox.conf}
chmod -R u=rwX,go=rX "$doc"
if [ -e crates/bank/out/MANIFEST ]; then install -m 644 crates/bank/out/MANIFEST "$doc/"; fi
cat >"$doc/copyright" <<END
Format: https://www.debian.org/doc/packaging-manuals/copyright-format/1.0/
Upstream-Name: Dimqured

Files: *
Copyright: the authors of Dimqured
License: MIT or Apache-2.0

License: MIT
$(sed -e 's/^$/./' -e 's/^/ /' LICENSE-MIT)

License: Apache-2.0
 On Debian the license is in /usr/share/common-licenses/Apache-2.0.
END
maintainer="${DEBFULLNAME:-Dimqured} <${DEBEMAIL:-$(git log -1 --format=%ae)}>"
{
    printf 'bank (%s) stable; urgency=medium\n\n  * As CHANGELOG.md has it.\n\n' "$version"
    printf ' -- %s  %s\n' "$maintainer" "$(date -R -u -d "@$SOURCE_DATE_EPOCH")"
} | gzip -9n >"$doc/changelog.gz"
cat >"$root/usr/share/lintian/overrides/bank" <<'END'
# The program is, byte for byte, the one that the manifest names.
bank: unstripped-binary-or-object [usr/bin/bank]
END

libc="$(readelf --version-info "$built" | grep -o 'GLIBC_[0-9.]*' | sort -Vu | tail -1)"
cat >"$root/DEBIAN/control" <<END
Package: bank
Version: $version
Architecture: $arch
Maintainer: $maintainer
Installed-Size: $(du -sk --apparent-size "$root" | cut -f 1)
Depends: libc6 (>= ${libc#GLIBC_}), libgcc-s1, adduser, curl, nftables, openssl, systemd
Recommends: nginx-light | nginx, sqlite3, logrotate, rsync, psmisc, apache2-utils
Section: database
Priority: optional
Description: ledger of a bank's tellers in one file
 Posts, serves, audits and replays a Debit/Credit bank in an SQLite file. The
 program is written in Rattle, with a proof of each function; the page for
 tellers, the units and the scripts are tested.
END
printf '%s\n' /etc/bank/bank.nft /etc/logrotate.d/bank-teller >"$root/DEBIAN/conffiles"
cat >"$root/DEBIAN/postinst" <<'END'
#!/bin/sh
set -e
if [ "$1" = configure ]; then
    if ! getent passwd bank >/dev/null; then
        adduser --system --group --quiet --home /var/lib/bank --no-create-home --shell /usr/sbin/nologin bank
    fi
    if [ -z "$2" ]; then
        install -d -o bank -g bank -m 700 /var/lib/bank
        if [ ! -e /var/lib/bank/bank.db ]; then runuser -u bank -- bank init /var/lib/bank/bank.db; fi
    fi
fi
if [ -d /run/systemd/system ]; then
    systemctl daemon-reload
    for unit in bank standby; do
        if systemctl --quiet is-active $unit; then
            echo "bank: $unit still runs the program of before: see Upgrade in /usr/share/doc/bank/docs/RUNBOOK.md" >&2
        fi
    done
fi
END
cat >"$root/DEBIAN/prerm" <<'END'
#!/bin/sh
set -e
if [ -d /run/systemd/system ] && [ "$1" = remove ]; then
    systemctl --no-reload disable --now teller bank standby evening.timer watch.timer || true
fi
END
cat >"$root/DEBIAN/postrm" <<'END'
#!/bin/sh
set -e
# The books in /var/lib/bank, and the copies in /var/lib/bank-evening, stay, also after a purge.
if [ -d /run/systemd/system ]; then systemctl daemon-reload || true; fi
END
chmod 755 "$root"/DEBIAN/{postinst,prerm,postrm}
(cd "$root" && find . -type f ! -path './DEBIAN/*' -printf '%P\0' | sort -z | xargs -0 md5sum >DEBIAN/md5sums)
find "$root" -exec touch --no-dereference --date "@$SOURCE_DATE_EPOCH" {} +
dpkg-deb --root-owner-group --build "$root" "$folder/bank_${version}_$arch.deb"
rm -r "$root/DEBIAN"
tar -C "$work" --owner 0 --group 0 --numeric-owner --sort name --mtime "@$SOURCE_DATE_EPOCH" -cf - "bank-$version" |
    gzip -9n >"$folder/bank-$version.tar.gz"
cd "$folder"
sha256sum "bank_${version}_$arch.deb" "bank-$version.tar.gz" | tee SHA256SUMS
