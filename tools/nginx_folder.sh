#!/usr/bin/env bash
# Makes a folder in which nginx can be started as examples/nginx.conf says, with the page, certificates of a day, and
# sign-ins for tellers 1 to 20: `teller1` has the password `counter1` and so on, and those with an odd number have a
# certificate too, and so has a follower, `standby`; that of `gone` was revoked. The scripts around nginx call it. What nginx stores stays in the folder.
#   tools/nginx_folder.sh FOLDER PORT PORT_OF_THE_COUNTER
set -eu
here=$(cd "$(dirname "$0")/.." && pwd)
front=$2
back=$3
cd "$1"
{
    openssl req -x509 -newkey rsa:2048 -nodes -days 1 -subj /CN=localhost -addext 'subjectAltName=DNS:localhost,IP:127.0.0.1' \
        -keyout bank.key -out bank.crt
    openssl genrsa -out teller.key 2048
    for name in standby teller{1..20..2}; do
        openssl req -new -key teller.key -subj "/CN=$name" -out teller.csr
        "$here/examples/certificates.sh" signer sign "$name" teller.csr 1
    done
    "$here/examples/certificates.sh" signer sign gone teller.csr 1
    "$here/examples/certificates.sh" signer revoke gone
} 2>/dev/null
cp signer/{standby,gone,teller*}.crt signer/revoked .
for ((teller = 1; teller <= 20; teller++)); do
    echo "teller$teller:$(openssl passwd -apr1 "counter$teller")" >>passwords
    printf 'teller%d %08d;\nCN=teller%d %08d;\n' "$teller" "$teller" "$teller" "$teller" >>tellers
done
echo 'CN=standby yes;' >followers
cp "$here/examples/teller.html" .
echo {} >settings.json
sed -e "1i user $(id -un);" -e "s/listen 8443/listen 127.0.0.1:$front/" -e "s/127.0.0.1:8080/127.0.0.1:$back/" \
    -e "s,/etc/teller;,$PWD;," "$here/examples/nginx.conf" >nginx.conf
nginx -t -q -p "$PWD" -c nginx.conf
