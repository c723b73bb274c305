# Sourced after tools.sh: what compiles and emulates C for each processor of library/targets but wasm32.
#   processor NAME   sets CC, which compiles and links a C program for it, and RUN, which goes in front of that program
#   tools_for NAME   installs what that needs, from Debian's packages; for wasm32 node
# The machines without a system have their standard input, output and files from the emulator (semihosting); what they
# print comes on the emulator's standard error.
BARE='--specs=picolibc.specs --oslib=semihost --crt0=hosted -Wl,--no-warn-execstack,--defsym=__stack_size=0x10000'
BARE="$BARE,--defsym=__flash_size=0x400000,--defsym=__ram_size=0x1000000"
X86_CC=$CC
EMULATED='-display none -monitor none -serial none -semihosting-config enable=on,target=native -kernel'

processor() {
    case $1 in
    x86_64)
        CC="$X86_CC -static"
        RUN=qemu-x86_64
        ;;
    aarch64)
        CC='aarch64-linux-gnu-gcc -static'
        RUN=qemu-aarch64
        ;;
    armv7a)
        CC='arm-linux-gnueabihf-gcc -static -mthumb'
        RUN=qemu-arm
        ;;
    riscv64)
        CC='riscv64-linux-gnu-gcc -static'
        RUN=qemu-riscv64
        ;;
    thumbv7em*)
        CC="arm-none-eabi-gcc -mcpu=cortex-m4 -mthumb $BARE,--defsym=__flash=0,--defsym=__ram=0x21000000"
        RUN="qemu-system-arm -M mps2-an386 $EMULATED"
        [ "$1" = thumbv7em ] || CC="$CC -mno-unaligned-access tests/lib/unaligned.c"
        ;;
    riscv32)
        CC="riscv64-unknown-elf-gcc -march=rv32imac -mabi=ilp32 $BARE"
        CC="$CC,--defsym=__flash=0x80000000,--defsym=__ram=0x80400000"
        RUN="qemu-system-riscv32 -M virt -bios none $EMULATED"
        ;;
    esac
}

tools_for() {
    case $1 in
    aarch64) need aarch64-linux-gnu-gcc gcc-aarch64-linux-gnu libc6-dev-arm64-cross ;;
    armv7a) need arm-linux-gnueabihf-gcc gcc-arm-linux-gnueabihf libc6-dev-armhf-cross ;;
    riscv64) need riscv64-linux-gnu-gcc gcc-riscv64-linux-gnu libc6-dev-riscv64-cross ;;
    thumbv7em*)
        need arm-none-eabi-gcc gcc-arm-none-eabi picolibc-arm-none-eabi
        need qemu-system-arm qemu-system-arm
        ;;
    riscv32)
        need riscv64-unknown-elf-gcc gcc-riscv64-unknown-elf picolibc-riscv64-unknown-elf
        need qemu-system-riscv32 qemu-system-misc
        ;;
    wasm32) need node nodejs ;;
    esac
    case $1 in
    x86_64 | aarch64 | armv7a | riscv64) need qemu-riscv64 qemu-user ;;
    esac
}
