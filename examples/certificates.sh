#!/usr/bin/env bash
# Who may sign in by a certificate. Keep FOLDER, which has the key that signs, on a machine that isn't nginx's and that
# nobody reaches from outside: the two files that nginx needs are `tellers.crt` and `revoked`.
#
#     examples/certificates.sh FOLDER sign NAME REQUEST [DAYS]    writes FOLDER/NAME.crt, for 365 days
#     examples/certificates.sh FOLDER revoke NAME                 its latest certificate, and the list `revoked`
#     examples/certificates.sh FOLDER list                        the list `revoked` anew: nginx takes it for 400 days
#
# The first call makes the folder, and the key, for ten years. Whoever asks keeps the key where it was made:
#
#     openssl req -new -newkey rsa:3072 -nodes -subj /CN=anna -keyout anna.key -out anna.csr
set -eu
umask 077
mkdir -p "$1/issued"
case "$2" in
    sign) request="$(realpath "$4")" ;;
esac
cd "$1"
ca() {
    openssl ca -batch -notext -config ca.conf "$@"
}
revoked() {
    ca -gencrl -out revoked.new
    mv revoked.new revoked
    chmod 644 revoked
}
if [ ! -e tellers.crt ]; then
    cat >ca.conf <<'END'
[ca]
default_ca = own
[own]
database = index.txt
new_certs_dir = issued
certificate = tellers.crt
private_key = tellers.key
default_md = sha256
default_crl_days = 400
rand_serial = yes
unique_subject = no
policy = name
[name]
commonName = supplied
END
    touch index.txt
    openssl req -x509 -newkey rsa:3072 -nodes -days 3650 -subj '/CN=the tellers of the bank' -keyout tellers.key -out tellers.crt
    chmod 644 tellers.crt
    revoked
fi
case "$2" in
    sign)
        ca -in "$request" -subj "/CN=$3" -days "${5:-365}" -out "$3.crt"
        chmod 644 "$3.crt"
        ;;
    revoke)
        ca -revoke "$3.crt"
        revoked
        ;;
    list) revoked ;;
    *) exit 2 ;;
esac
