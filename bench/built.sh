#!/usr/bin/env bash
# Ends with a fault where there is no proved program of these sources.
set -eu
root="$(cd "$(dirname "$0")/.." && pwd)"
if [ ! -x "$root/crates/clnp_tool/out/clnp_tool" ] || ! "$root/clnp" --version | grep -q '^proved by '; then
    echo "there is no proved program here: ./clnp prove" >&2
    exit 1
fi
