#!/usr/bin/env bash
# Joins `plant live` to an MQTT broker: a message on plant/in is a row, and its answer is a message on plant/out.
#
# usage: bridge.sh PLANT STORE warm|cold [PORT]     PLANT is the built program, STORE the retain file; the broker listens on this port of this
#                                                   machine, 1883 by default. Needs Debian's package mosquitto-clients
#
# - The header comes first, so the bridge sends it. The clocks of publishers give the moments, so one publisher sends all rows.
# - A message that gets no answer is sent again. `refused K4` then says that it was saved before, or a later one.
# - When plant ends, the bridge ends with its status. The switch of the heater needs a time limit of its own: it turns off when nothing comes
#   from plant/out for some seconds.
set -euo pipefail

plant=$(realpath "$1") store=$(realpath "$2") start=$3
broker=(-h 127.0.0.1 -p "${4:-1883}" -q 1)
cd "$(dirname "$0")"

exec 3< <(echo t,temperature && exec mosquitto_sub "${broker[@]}" -t plant/in)
subscriber=$!
trap 'kill "$subscriber"' EXIT
"$plant" live mqtt.st --store "$store" --start "$start" <&3 | mosquitto_pub "${broker[@]}" -t plant/out -l
