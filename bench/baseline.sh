# For the scripts that measure beside the baseline: `. "$top/bench/baseline.sh"` builds the baseline in a scratch folder
# `work`, which is removed at the end. It sets `base` to the folder of the sources, which is bench/baseline or the folder
# that BASE names (a Cargo crate `base`), and `bin` to the program.
base=${BASE:-$top/bench/baseline}
work=$(mktemp -d)
trap 'rm -rf "$work"' EXIT
cp -r "$base" "$work/base"
chmod -R u+w "$work/base"
(cd "$work/base" && cargo build --release --offline >"$work/built" 2>&1) || {
  echo "the baseline in $base does not build:" >&2
  tail -n 5 "$work/built" >&2
  exit 1
}
bin=$work/base/target/release/base
