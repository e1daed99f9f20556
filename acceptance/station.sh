#!/usr/bin/env bash
# station.sh WORK PROGRAM: what on_air.sh runs in namespaces of its own: a machine whose systemd has the unit files of samples/origin,
# installed as docs/OPERATING.md has it, and nothing else. The channel's folder is WORK/channel, and its settings are in WORK/settings.
# Nothing of this machine is changed: what is written to elsewhere stands in memory, and /etc is a copy.
set -eu
work=$1 program=$2
samples=$(cd "$(dirname "$0")/../samples/origin" && pwd)

mount --make-rprivate /
mount -t tmpfs tmpfs /usr/local
mkdir -p /usr/local/bin /usr/local/lib/tshls
install "$program" /usr/local/bin/tshls
install "$samples"/{channel,encoder,inputs,make_folder} /usr/local/lib/tshls

cp -a /etc "$work/etc"
mount --bind "$work/etc" /etc
mkdir /etc/tshls
mount --bind "$work/settings" /etc/tshls
useradd --system --no-create-home tshls

mount -t tmpfs tmpfs /srv
mkdir /srv/channel /srv/logs
chown -R tshls: "$work/channel"
mount --bind "$work/channel" /srv/channel
mount --bind "$work" /srv/logs

mount -t tmpfs tmpfs /run
mkdir /run/units /run/none
cp "$samples"/*.service /run/units
for name in packager:tshls@ encoder:tshls-encoder@ inputs:tshls-inputs@; do
    mkdir "/run/units/${name#*:}.service.d"
    printf '[Service]\nStandardOutput=append:/srv/logs/%s.log\n' "${name%:*}" >"/run/units/${name#*:}.service.d/log.conf"
done
for target in sysinit basic network multi-user shutdown; do
    printf '[Unit]\nDefaultDependencies=no\n' >/run/units/$target.target
done
for folder in /var/tmp /var/lib/systemd /tmp; do
    mount -t tmpfs tmpfs $folder
done
export container=tshls SYSTEMD_UNIT_PATH=/run/units SYSTEMD_GENERATOR_PATH=/run/none SYSTEMD_ENVIRONMENT_GENERATOR_PATH=/run/none
exec /lib/systemd/systemd --system --unit=multi-user.target --log-target=console --show-status=0 --default-standard-output=null
