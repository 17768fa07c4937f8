# How programs for a Cortex-M3 are built, and run in QEMU's emulation of the board MPS2 AN385. To be sourced, after tools/x86/env.sh.
#   need_board_packages  installs the Debian packages that are missing
#   m3_cc ARGS           the C compiler, with the board's memory
#   m3_run PROGRAM ARGS  runs a test that was built with ctest/cortex-m/start.c, whose files and output are this machine's; m3_options are QEMU's
m3_options=
need_board_packages() { install_missing rustc rust-src gcc-arm-none-eabi libnewlib-arm-none-eabi qemu-system-arm python3; }

m3_cc() {
    arm-none-eabi-gcc -mcpu=cortex-m3 -mthumb -std=c11 -Wall -Wextra -Wpedantic -Werror -Os -ffunction-sections -nostartfiles \
        -Wl,--gc-sections,--no-warn-execstack -T "$x86_top/examples/cortex-m/mps2-an385.ld" "$@"
}

m3_run() {
    local words="enable=on,target=native,arg=$1" word
    for word in "${@:2}"; do words+=",arg=$word"; done
    timeout 120 qemu-system-arm -M mps2-an385 -display none -monitor none -serial none -semihosting-config "$words" $m3_options -kernel "$1"
}
