#!/usr/bin/env bash
# Installs the packages that tools/packages.sh made in a fresh root of Debian, and uses each as a user
# would: tools/packages_tried.sh FOLDER. There the programs serve an example, a program in C is built
# by pkg-config over archive and shared object, Python serves, and the server's unit is verified and
# its ExecStart run by hand as its user, killed, and started again over what it kept. Needs root,
# mmdebstrap and a mirror of Debian; lintian too, if it is there.
set -euo pipefail
cd "$(dirname "$0")/.."
[ $# = 1 ] || { echo "words: FOLDER" >&2; exit 2; }
packages=$(realpath "$1")
for tool in mmdebstrap chroot; do
  command -v $tool > /dev/null || { echo "packages: NOT TRIED, since there is no $tool"; exit 0; }
done
work=$(mktemp -d)
root=$work/root
trap 'rm -rf "$work"' EXIT

if command -v lintian > /dev/null; then
  lintian --fail-on error "$packages"/*.deb \
    > "$work/lintian" || { cat "$work/lintian"; exit 1; }
  echo "lintian: no error, $(grep -c '^W:' "$work/lintian" || true) warnings"
fi
mmdebstrap --quiet --variant=minbase \
  --include=adduser,gcc,libc6-dev,libsqlite3-0,libuv1,pkg-config,python3,socat,systemd \
  "$(. /etc/os-release && echo "$VERSION_CODENAME")" "$root"
mkdir "$root/packages"
cp "$packages"/*.deb "$root/packages/"
cp examples/first.session examples/login.handlers embedding/check.c "$root/"
chroot "$root" sh -c 'dpkg -i /packages/*.deb > /installed 2>&1' || { cat "$root/installed"; exit 1; }

cat > "$root/used" <<'USED'
set -eu
cd /tmp
foresight serve < /first.session | head -n 3
foresight_where --version > /dev/null || foresight_where --help > /dev/null
gcc -std=c99 /check.c $(pkg-config --cflags --libs foresight) -o shared
ldd ./shared | grep -q libforesight
gcc -std=c99 -static /check.c $(pkg-config --cflags --libs foresight) -o fixed
foresight check < /login.handlers > wanted
for one in shared fixed; do ./$one < /login.handlers > given; cmp given wanted; done
python3 -c 'import foresight
s = foresight.Session(open("/etc/foresight/handlers").read() + "%%\n")
print(s.serve(["book A1 ann", "book A1 bob"]))'
if [ -x /usr/bin/foresight-server ]; then
  systemd-analyze verify --man=no /lib/systemd/system/foresight-server.service \
    || systemd-analyze verify --man=no /usr/lib/systemd/system/foresight-server.service
  install -d -o foresight -g foresight /var/lib/foresight /run/foresight
  start=$(sed -n 's/^ExecStart=//p; ' /usr/lib/systemd/system/foresight-server.service)
  OPTIONS=
  say() { printf '%s\n' "$1" | socat -t 2 - UNIX-CONNECT:/run/foresight/socket; }
  serve() {
    setpriv --reuid foresight --regid foresight --init-groups sh -c "exec $start" & server=$!
    for try in $(seq 100); do [ -S /run/foresight/socket ] && break; sleep 0.1; done
  }
  serve; say 'book A1 ann'; kill -9 $server; wait $server || true; rm -f /run/foresight/socket
  serve; say 'book A1 bob'; kill $server; wait $server
  ls -l /var/lib/foresight
fi
USED
chroot "$root" env OPTIONS= sh /used > "$work/said" 2>&1 || { cat "$work/said"; exit 1; }
cat "$work/said"
grep -qx 'taken ann' "$work/said"
echo "packages: installed and used in a fresh root"
