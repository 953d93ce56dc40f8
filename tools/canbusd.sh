#!/bin/sh
# Runs an installed canbusd: the program in ../libexec/canbusd. For `serve` and the commands of the Python package, runs
# the scripts in the same folder.
set -eu
# A write beyond `ulimit -f` fails and is reported. Without this line SIGXFSZ would end the program.
trap '' XFSZ
case $0 in */*) script=$0 ;; *) script=./$0 ;; esac
[ ! -h "$script" ] || script=$(readlink -f -- "$script")
place=${script%/*}/../libexec/canbusd
# The path of the Python package. `make install` writes the installed path here.
# shellcheck disable=SC2034
package=$place/../python/src
# The program that commands of the package run. It need not be in PATH.
: "${CANBUSD:=$place/canbusd}"
export CANBUSD
# shellcheck source=tools/commands
. "$place/commands"
[ "${1-}" != serve ] || exec "$place/serve" "$place/canbusd" "$@"
exec "$place/canbusd" "$@"
