//! A large file for timing.
use crate::token::lexed;

const HEAD: &str = "\
/dts-v1/;
#include <dt-bindings/gpio/gpio.h>

/ {
\t#address-cells = <2>;
\t#size-cells = <2>;

\tsoc: soc@0 {
\t\tcompatible = \"simple-bus\";
\t\t#address-cells = <1>;
\t\t#size-cells = <1>;
\t\tranges;

";
const TAIL: &str = "\t};
};

&uart0 {
\tstatus = \"okay\";
};
";

fn uart(i: u32, a: u32) -> String {
    let irq = i + 32;
    format!(
        "\t\tuart{i}: serial@{a:x} {{
\t\t\tcompatible = \"acme,uart-v2\", \"ns16550a\";
\t\t\treg = <{a:#x} 0x1000>;
\t\t\tinterrupts = <{irq} IRQ_TYPE_LEVEL_HIGH>;
\t\t\tclocks = <&clk CLK_UART{i}>, <&clk CLK_APB>;
\t\t\tclock-names = \"uart\", \"apb\";
\t\t\treg-shift = <2>;
\t\t\tstatus = \"disabled\"; /* enabled by the board */
\t\t}};

"
    )
}

fn i2c(i: u32, a: u32) -> String {
    format!(
        "\t\ti2c{i}: i2c@{a:x} {{
\t\t\tcompatible = \"acme,i2c\";
\t\t\treg = <{a:#x} 0x1000>;
\t\t\t#address-cells = <1>;
\t\t\t#size-cells = <0>;

\t\t\tpmic@4b {{
\t\t\t\tcompatible = \"rohm,bd71847\";
\t\t\t\treg = <0x4b>;
\t\t\t\tinterrupt-parent = <&gpio1>;
\t\t\t\tinterrupts = <3 IRQ_TYPE_LEVEL_LOW>;

\t\t\t\tregulators {{
\t\t\t\t\tbuck{i}_reg: BUCK1 {{
\t\t\t\t\t\tregulator-name = \"buck1\";
\t\t\t\t\t\tregulator-min-microvolt = <700000>;
\t\t\t\t\t\tregulator-max-microvolt = <1300000>;
\t\t\t\t\t\tregulator-boot-on;
\t\t\t\t\t\tregulator-always-on;
\t\t\t\t\t}};
\t\t\t\t}};
\t\t\t}};
\t\t}};

"
    )
}

fn pinctrl(i: u32, a: u32) -> String {
    format!(
        "\t\tpinctrl{i}: pinctrl@{a:x} {{
\t\t\treg = <{a:#x} 0x1000>;
#ifdef CONFIG_PINS_{i}
\t\t\tpins = <(PIN_A << 8 | FUNC_{i}) (PIN_B << 8 | 2)>, <PIN(1, 2) ((1 + 2) * 3)>;
#else
\t\t\tpins = <0x{i:x} 1 2 3>;
#endif
\t\t\tuart-pins {{
\t\t\t\tpins = \"gpio0\", \"gpio1\";
\t\t\t\tbias-disable; // no pull
\t\t\t\tdrive-strength = <(DRV_4MA + 2)>;
\t\t\t}};
\t\t}};

"
    )
}

fn ethernet(i: u32, a: u32) -> String {
    let (byte, irq) = (i % 256, i + 64);
    format!(
        "\t\teth{i}: ethernet@{a:x} {{
\t\t\tcompatible = \"acme,gmac\";
\t\t\treg = <{a:#x} 0x1000>;
\t\t\tlocal-mac-address = [00 11 22 33 44 {byte:02x}];
\t\t\tphy-handle = <&phy{i}>;
\t\t\tinterrupts-extended = <&gic 0 {irq} 4>, <&gpio 5 GPIO_ACTIVE_HIGH>;
\t\t\tlinux,default-trigger = \"heartbeat\";
\t\t}};

"
    )
}

/// A realistic board file of about `n` tokens (trivia counted), without reports.
pub fn big(n: usize) -> String {
    let mut o = String::from(HEAD);
    let (mut i, mut tokens) = (0, 40);
    while tokens < n {
        let node = [uart, i2c, pinctrl, ethernet][i as usize % 4](i, 0x10000000 + i * 0x1000);
        tokens += lexed(&node).len();
        o.push_str(&node);
        i += 1;
    }
    o.push_str(TAIL);
    o
}
