# Builds the harness into target/beside/. Sourced by the scripts, from the root.
# Exits with 3 where there is no source of the crate, with 4 where there is no compiler.

crate_source=${TICKV_SRC:-../shared/docs/src}
out=target/beside

[ -f "$crate_source/src/lib.rs" ] || { echo "no source of tickv at $crate_source (TICKV_SRC): nothing was run"; exit 3; }
# Where rustup puts it, if the PATH does not say.
command -v rustc >/dev/null || PATH=$PATH:${HOME:-}/.cargo/bin
for tool in rustc cc; do
    "$tool" --version >/dev/null 2>&1 || { echo "no $tool that runs here: nothing was run"; exit 4; }
done

bash scripts/archive || exit 1

compile() {
    rustc --edition 2021 -O "$@" || exit 1
}

mkdir -p "$out"
# The crate is not ours to mend, so its warnings are not shown.
compile --cap-lints allow --crate-type rlib --crate-name tickv \
    "$crate_source/src/lib.rs" -o "$out/libtickv.rlib"
compile --crate-type rlib --crate-name stilefray rust/src/lib.rs \
    -L target/staticlib -l static=stilefray -o "$out/libstilefray.rlib"
compile --crate-name beside beside/src/main.rs -L target/staticlib \
    --extern "tickv=$out/libtickv.rlib" --extern "stilefray=$out/libstilefray.rlib" \
    -o "$out/beside"
