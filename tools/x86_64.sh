# Sourced by .ci/run: how the callers of the port's archive are built and run. The archive is x86-64 and nothing else.
# On x86-64 that takes the plain compiler and no more. On another machine it takes Debian's cross compiler and emulator,
# and for cargo a standard library for x86-64.
#
#   x86_cc, x86_cargo   the compiler and cargo, for x86-64
#   x86_run, emulator   runs an x86-64 program, and what it runs under
#   host_cargo          cargo for this machine, for what asks the port nothing: under the emulator it takes some twenty
#                       times as long
#   some, unjudged      what the oracle and the benchmark are told: how much of the random inputs to take, and that
#                       times mean nothing

if [ "$(uname -m)" = x86_64 ]; then
  x86_cc() { cc "$@"; }
  x86_cargo() { cargo "$@"; }
  x86_run() { "$@"; }
  host_cargo() { cargo "$@"; }
  emulator='' some=() unjudged=()
  return
fi

some=(--one-in 10) unjudged=(--unjudged)
say "on $(uname -m): the archive is x86-64, so what calls it runs under an emulator"
echo "no step is left out; the oracle takes one in ten of the random pairs and histories," \
  "its teeth run without the emulator, no speed is judged"
need x86_64-linux-gnu-gcc gcc-x86-64-linux-gnu libc6-dev-amd64-cross
need qemu-x86_64 qemu-user
# A standard library fits one compiler; Debian has both, and the newest of both is the same.
install_newest 'rustc-web|rustc'

x86=$PWD/target/x86_64
emulator="qemu-x86_64 -L /usr/x86_64-linux-gnu" # where the cross compiler has its C library

x86_cc() { x86_64-linux-gnu-gcc "$@"; }
x86_run() { $emulator "$@"; }

x86_cargo() {
  local target=CARGO_TARGET_X86_64_UNKNOWN_LINUX_GNU std="-L $x86/std/usr/lib/rustlib/x86_64-unknown-linux-gnu/lib"
  unpack_std
  env RUSTC=/usr/bin/rustc RUSTFLAGS="$std" RUSTDOC=/usr/bin/rustdoc RUSTDOCFLAGS="$std" \
    CARGO_BUILD_TARGET=x86_64-unknown-linux-gnu "${target}_LINKER=x86_64-linux-gnu-gcc" \
    "${target}_RUNNER=$emulator" cargo "$@"
}

# Debian's standard library for x86-64 is unpacked and not installed, and apt gets lists of its own for it: so the
# machine need not take packages of a second architecture.
unpack_std() {
  [ -d "$x86/std" ] && return
  local package=libstd-rust-dev apt=(apt-get -qq -o APT::Architecture=amd64 -o APT::Architectures=amd64
    -o APT::Sandbox::User=root -o "Dir::State::lists=$x86/lists" -o "Dir::Cache=$x86/cache")
  dpkg -s rustc-web >/dev/null 2>&1 && package=libstd-rust-web-dev
  mkdir -p "$x86/lists/partial" "$x86/cache/archives/partial"
  "${apt[@]}" update
  (cd "$x86" && "${apt[@]}" download "$package")
  dpkg -x "$x86/$package"_*.deb "$x86/unpacked"
  mv "$x86/unpacked" "$x86/std"
}

# The archive's names, each of which stops the program, so that it links for this machine too.
host_cargo() {
  mkdir -p "$x86/names"
  x86_64-linux-gnu-nm --defined-only --extern-only target/staticlib/liblanolin.a |
    awk '$2 == "T" { print "void " $3 "(void) { __builtin_trap(); }" }' > "$x86/names/names.c"
  cc -c "$x86/names/names.c" -o "$x86/names/names.o"
  ar rcs "$x86/names/liblanolin.a" "$x86/names/names.o"
  LANOLIN_LIB=$x86/names cargo "$@"
}
