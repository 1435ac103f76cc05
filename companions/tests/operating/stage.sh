#!/usr/bin/env bash
# Runs a script as on a machine of its own: in a namespace of mounts, network and processes, where the folders that an
# operator writes to are empty ones, and /etc is a copy. Started by test_operating.py, in the folder of the stage.
set -euo pipefail
stage=$PWD
# A folder for temporary files that the tests have needn't be open to the users here.
unset TMPDIR
export PATH=$stage/bin:/usr/local/sbin:/usr/local/bin:/usr/sbin:/usr/bin:/sbin:/bin HOME=/root LC_ALL=C.UTF-8
cp -a /etc "$stage/etc"
mount --bind "$stage/etc" /etc
for folder in /usr/local /var/lib /var/log /var/backups /srv /root /run; do
  mount -t tmpfs -o mode=755 none "$folder"
done
mkdir -p /usr/local/{bin,lib,share/ca-certificates} /var/log/nginx /var/lib/nginx /run/lock /srv/git
rm -rf /etc/systemd/system && mkdir /etc/systemd/system
# However many processors this one has.
sed -i 's/^worker_processes .*/worker_processes 4;/' /etc/nginx/nginx.conf
echo '127.0.0.1 localhost' >/etc/hosts
# Of the machine's 140 authorities none is asked for here, and all would be read by each program that begins.
rm -rf /etc/ssl/certs && mkdir /etc/ssl/certs && : >/etc/ca-certificates.conf
/usr/bin/python3 - <<'PYTHON'
import fcntl, socket, struct
with socket.socket(socket.AF_INET, socket.SOCK_DGRAM) as any_socket:
    fcntl.ioctl(any_socket, 0x8914, struct.pack("16sh14s", b"lo", 1, b""))  # SIOCSIFFLAGS: lo is up
PYTHON
# The repositories of examples/settings.toml, which a forge would have elsewhere, and somebody who pushes to them.
rm -f /etc/gitconfig
useradd --user-group --create-home --home-dir /srv/dev dev
# A forge that two machines use.
[ -z "${SHARED-}" ] || mount --bind "$SHARED" /srv/git
for project in lib app site; do
  [ ! -e "/srv/git/$project.git" ] || continue
  git init --quiet --bare --initial-branch=main "/srv/git/$project.git"
  tree=$(git -C "/srv/git/$project.git" hash-object -t tree -w /dev/null)
  git -C "/srv/git/$project.git" update-ref refs/heads/main \
    "$(git -C "/srv/git/$project.git" -c user.name=a -c user.email=b commit-tree -m 'Begin' "$tree")"
done
cd "$stage/checkout"
bash "$stage/page.sh"
exec /usr/bin/python3 "$stage/checks.py"
