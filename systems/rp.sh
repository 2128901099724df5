#!/bin/sh
# The command that this file is named for by Node, from wherever it stands, also by a link to it.
at=$0
while [ -h "$at" ]; do
  to=$(readlink "$at")
  case $to in
    /*) at=$to ;;
    *) at=$(dirname "$at")/$to ;;
  esac
done
exec node "$(dirname "$at")/$(basename "$at").mjs" "$@"
