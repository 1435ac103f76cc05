# The program and the settings of a measurement: proves and builds `gated` once, if it isn't there. PROGRAM names
# another executable in its place.
top=$(cd "$(dirname "$0")/.." && pwd)
program=${PROGRAM:-$top/crates/gated/out/gated}
settings=$top/bench/settings.toml
if [ ! -x "$program" ]; then
    (cd "$top/crates/gated" && rt run -- replay "$settings" </dev/null)
fi
