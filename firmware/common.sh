# What the commands share: the targets, what each needs, and where the kit is. Read by them, not run.
root=$(cd "$(dirname "${BASH_SOURCE[0]}")/.." && pwd)
made=$root/target/firmware
src=$root/firmware/src
die() { echo "firmware/$(basename "$0"): $*" >&2; exit 2; }

# A machine that is emulated whole, with nothing but what its program tells.
quiet=(-display none -monitor none -serial none -semihosting-config "enable=on,target=native")

# Of the code for these nothing is proved, and it is tested alone (docs/PROCESSORS.md).
targets="x86-64 aarch64 arm cortex-m33 cortex-m33-hard riscv64 riscv32"

# choose TARGET: for it, `words` are those that the kit's compiler takes, `compiler` those of Debian's that compiles and links a program, and
# `emulator` those that run one. Where there is no operating system, `bare_start` is what begins a program.
choose() {
  chosen=$1 bare_start=''
  case $1 in
    x86-64)
      words=(--target=x86_64-linux-gnu -fPIC) compiler=(x86_64-linux-gnu-gcc -static)
      emulator=(env) # as it is, on a machine of this kind
      [ "$(uname -m)" = x86_64 ] || emulator=(qemu-x86_64) ;;
    aarch64)
      words=(--target=aarch64-linux-gnu -fPIC) compiler=(aarch64-linux-gnu-gcc -static)
      emulator=(qemu-aarch64) ;;
    arm)
      words=(--target=armv7a-linux-gnueabihf -mfpu=vfpv3-d16 -fPIC) compiler=(arm-linux-gnueabihf-gcc -static)
      emulator=(qemu-arm) ;;
    cortex-m33 | cortex-m33-hard)
      local floats=soft; [ "$1" = cortex-m33 ] || floats=hard
      # The C library's names for copies, in place of the Arm ABI's, which not every C library has.
      words=(--target=thumbv8m.main-none-eabi "-mfloat-abi=$floats" -meabi gnu)
      compiler=(arm-none-eabi-gcc -mcpu=cortex-m33 -mthumb "-mfloat-abi=$floats" -nostartfiles
        -Wl,-z,noexecstack -T "$src/cortex-m33/board.ld")
      bare_start=cortex-m33/start.c
      emulator=(qemu-system-arm -M mps2-an505 "${quiet[@]}" -kernel) ;;
    riscv64)
      words=(--target=riscv64-linux-gnu -march=rv64gc -mabi=lp64d -fPIC) compiler=(riscv64-linux-gnu-gcc -static)
      emulator=(qemu-riscv64) ;;
    riscv32)
      words=(--target=riscv32-unknown-elf -march=rv32imac -mabi=ilp32)
      bare_start=riscv32/start.S
      compiler=(riscv64-unknown-elf-gcc -march=rv32imac -mabi=ilp32 --specs=picolibc.specs -nostartfiles -T "$src/riscv32/board.ld")
      emulator=(qemu-system-riscv32 -M virt -bios none "${quiet[@]}" -kernel) ;;
    *) die "$1 is no target; there are: $targets" ;;
  esac
  archive=$made/$1/libvolankizo.a
}

need_tools() {
  for tool in "$@"; do
    command -v "$tool" >/dev/null || die "$tool is not on the path; firmware/README.md names the package that has it"
  done
}

# The kit's folder, and what it has for this machine.
find_kit() {
  need_tools rt
  kit=$(dirname "$(rt doc)")
  kit_tools=$kit/toolchain/bin
  [ -x "$kit_tools/clang" ] && [ -x "$kit_tools/llvm-ar" ] || die "no clang and llvm-ar at $kit_tools"
}

# The archive that is meant, of the chosen target or that of `tools/build`, no older than the code that it was made from.
need_archive() {
  local make="tools/build volankizo" newer
  [ -z "$chosen" ] || make="firmware/build $chosen"
  [ -f "$archive" ] || die "$archive is missing: run $make"
  newer=$(find "$root"/crates/*/src "$root/crates.txt" -type f -newer "$archive" -print -quit)
  [ -z "$newer" ] || die "$newer is newer than $archive: run $make"
}
